// many runs so many agents of pion/ice v2 in one process, in pairs over loopback, and prints by how many KB of resident memory the
// process grows for each.
//
//	many AGENTS
package main

import (
	"context"
	"fmt"
	"net"
	"os"
	"runtime/debug"
	"strconv"
	"strings"

	"github.com/pion/ice/v2"
	"github.com/pion/logging"
)

func must(err error) {
	if err != nil {
		fmt.Fprintln(os.Stderr, "many:", err)
		os.Exit(2)
	}
}

var kept []*ice.Conn

// gathered returns an agent with its candidates.
func gathered() *ice.Agent {
	quiet := logging.NewDefaultLoggerFactory()
	quiet.DefaultLogLevel = logging.LogLevelDisabled
	agent, err := ice.NewAgent(&ice.AgentConfig{
		LoggerFactory:    quiet,
		NetworkTypes:     []ice.NetworkType{ice.NetworkTypeUDP4},
		CandidateTypes:   []ice.CandidateType{ice.CandidateTypeHost},
		MulticastDNSMode: ice.MulticastDNSModeDisabled,
		IncludeLoopback:  true,
		IPFilter:         func(ip net.IP) bool { return ip.IsLoopback() },
	})
	must(err)
	done := make(chan struct{})
	must(agent.OnCandidate(func(c ice.Candidate) {
		if c == nil {
			close(done)
		}
	}))
	must(agent.GatherCandidates())
	<-done
	return agent
}

func connected() {
	agents := [2]*ice.Agent{gathered(), gathered()}
	conns := make(chan *ice.Conn)
	for i, agent := range agents {
		candidates, err := agents[1-i].GetLocalCandidates()
		must(err)
		for _, candidate := range candidates {
			copied, err := ice.UnmarshalCandidate(candidate.Marshal())
			must(err)
			must(agent.AddRemoteCandidate(copied))
		}
		ufrag, password, err := agents[1-i].GetLocalUserCredentials()
		must(err)
		join := agent.Accept
		if i == 0 {
			join = agent.Dial
		}
		go func() {
			conn, err := join(context.Background(), ufrag, password)
			must(err)
			conns <- conn
		}()
	}
	kept = append(kept, <-conns, <-conns)
}

// resident returns the KB of this process.
func resident() int {
	debug.FreeOSMemory()
	text, err := os.ReadFile("/proc/self/status")
	must(err)
	_, after, _ := strings.Cut(string(text), "VmRSS:")
	kilobytes, err := strconv.Atoi(strings.Fields(after)[0])
	must(err)
	return kilobytes
}

func main() {
	agents, err := strconv.Atoi(os.Args[1])
	must(err)
	connected()
	before := resident()
	for i := 0; i < agents/2; i++ {
		connected()
	}
	fmt.Println(float64(resident()-before) / float64(agents/2*2))
}
