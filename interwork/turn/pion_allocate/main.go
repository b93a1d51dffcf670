// Measures how long pion's TURN client takes to allocate: prints the milliseconds of each, or "failed".
//
// usage: pion_allocate HOST:PORT ALLOCATIONS AT-ONCE
package main

import (
	"fmt"
	"net"
	"os"
	"strconv"
	"sync"
	"time"

	"github.com/pion/turn/v2"
)

func fail(err error) {
	if err != nil {
		fmt.Fprintln(os.Stderr, err)
		os.Exit(1)
	}
}

func allocate(server string) string {
	socket, err := net.ListenPacket("udp4", "127.0.0.1:0")
	fail(err)
	defer socket.Close()
	client, err := turn.NewClient(&turn.ClientConfig{TURNServerAddr: server, Conn: socket, Username: "user", Password: "secret"})
	fail(err)
	fail(client.Listen())
	defer client.Close()
	begun := time.Now()
	relay, err := client.Allocate()
	if err != nil {
		return "failed"
	}
	defer relay.Close()
	return fmt.Sprintf("%.3f", float64(time.Since(begun).Microseconds())/1000)
}

func main() {
	count, err := strconv.Atoi(os.Args[2])
	fail(err)
	atOnce, err := strconv.Atoi(os.Args[3])
	fail(err)
	var waiting sync.WaitGroup
	places := make(chan bool, atOnce)
	for i := 0; i < count; i++ {
		waiting.Add(1)
		places <- true
		go func() {
			fmt.Println(allocate(os.Args[1]))
			<-places
			waiting.Done()
		}()
	}
	waiting.Wait()
}
