// pion's TURN server, over UDP and TCP, with the user and the realm of turn_servers.py.
//
// usage: pion_server HOST:PORT
package main

import (
	"fmt"
	"net"
	"os"

	"github.com/pion/turn/v2"
)

func fail(err error) {
	if err != nil {
		fmt.Fprintln(os.Stderr, err)
		os.Exit(1)
	}
}

func main() {
	datagrams, err := net.ListenPacket("udp4", os.Args[1])
	fail(err)
	streams, err := net.Listen("tcp4", os.Args[1])
	fail(err)
	host, _, err := net.SplitHostPort(os.Args[1])
	fail(err)
	key := turn.GenerateAuthKey("user", "example.org", "secret")
	relays := &turn.RelayAddressGeneratorStatic{RelayAddress: net.ParseIP(host), Address: host}
	_, err = turn.NewServer(turn.ServerConfig{
		Realm: "example.org",
		AuthHandler: func(user, _ string, _ net.Addr) ([]byte, bool) {
			return key, user == "user"
		},
		PacketConnConfigs: []turn.PacketConnConfig{{PacketConn: datagrams, RelayAddressGenerator: relays}},
		ListenerConfigs:   []turn.ListenerConfig{{Listener: streams, RelayAddressGenerator: relays}},
	})
	fail(err)
	select {}
}
