// pion is an agent of pion/ice v2 that reads and prints the lines of c/examples/peer.c: standard output is for the other peer's
// standard input, and standard error reports what happens.
//
//	pion [-a ADDRESS].. [-s HOST:PORT] [-u HOST:PORT -U USER:PASSWORD] [-L] [-T] controlling|controlled
//
// -a: only these addresses. -s: a STUN server. -u: a TURN server. -L: is lite. -T: trickles, so that candidates are lines of
// their own after the signal.
//
// It reads: signal UFRAG PASSWORD LINE,LINE,.. ; candidate:.. ; /restart ; /quit. It sends any other line to the other peer.
package main

import (
	"bufio"
	"context"
	"flag"
	"fmt"
	"net"
	"os"
	"strings"
	"sync"

	"github.com/pion/ice/v2"
	"github.com/pion/logging"
)

type list []string

func (l *list) String() string     { return strings.Join(*l, ",") }
func (l *list) Set(s string) error { *l = append(*l, s); return nil }

var (
	addresses list
	stun      = flag.String("s", "", "HOST:PORT of a STUN server")
	turn      = flag.String("u", "", "HOST:PORT of a TURN server")
	user      = flag.String("U", "", "USER:PASSWORD at the TURN server")
	lite      = flag.Bool("L", false, "is lite")
	trickle   = flag.Bool("T", false, "trickles candidates")
)

func report(format string, values ...interface{}) { fmt.Fprintf(os.Stderr, format+"\n", values...) }

func must(what string, err error) {
	if err != nil {
		report("pion: %s: %v", what, err)
		os.Exit(2)
	}
}

type peer struct {
	mutex       sync.Mutex // for what is printed, and for the fields below
	agent       *ice.Agent
	conn        *ice.Conn
	controlling bool
	remoteUfrag string
	begun       bool
	gathered    chan struct{} // closed when gathering ends
	lines       []string
}

func config() *ice.AgentConfig {
	quiet := logging.NewDefaultLoggerFactory()
	quiet.DefaultLogLevel = logging.LogLevelDisabled
	c := &ice.AgentConfig{
		Lite:             *lite,
		LoggerFactory:    quiet,
		NetworkTypes:     []ice.NetworkType{ice.NetworkTypeUDP4, ice.NetworkTypeUDP6},
		MulticastDNSMode: ice.MulticastDNSModeDisabled,
		IncludeLoopback:  len(addresses) > 0,
		Urls:             servers(),
	}
	if *lite {
		c.CandidateTypes = []ice.CandidateType{ice.CandidateTypeHost}
	}
	if len(addresses) > 0 {
		c.IPFilter = isNamed
	}
	return c
}

// isNamed returns whether an option names the address.
func isNamed(ip net.IP) bool {
	for _, a := range addresses {
		if net.ParseIP(a).Equal(ip) {
			return true
		}
	}
	return false
}

// servers returns the STUN and TURN servers of the options.
func servers() []*ice.URL {
	var urls []*ice.URL
	if *stun != "" {
		u, err := ice.ParseURL("stun:" + *stun)
		must(*stun, err)
		urls = append(urls, u)
	}
	if *turn != "" {
		u, err := ice.ParseURL("turn:" + *turn + "?transport=udp")
		must(*turn, err)
		u.Username, u.Password, _ = strings.Cut(*user, ":")
		urls = append(urls, u)
	}
	return urls
}

func address(c ice.Candidate) string { return net.JoinHostPort(c.Address(), fmt.Sprint(c.Port())) }

func (p *peer) begin() {
	var err error
	p.agent, err = ice.NewAgent(config())
	must("agent", err)
	must("states", p.agent.OnConnectionStateChange(func(s ice.ConnectionState) { report("state %s", s) }))
	must("pairs", p.agent.OnSelectedCandidatePairChange(func(local, remote ice.Candidate) {
		report("path %s %s %s %s", address(local), address(remote), local.Type(), remote.Type())
	}))
	must("candidates", p.agent.OnCandidate(p.candidate))
	p.gather()
}

// candidate gets each candidate that is gathered, and nil after the last one.
func (p *peer) candidate(c ice.Candidate) {
	p.mutex.Lock()
	defer p.mutex.Unlock()
	if c == nil {
		close(p.gathered)
		return
	}
	line := "candidate:" + c.Marshal()
	if *trickle {
		fmt.Println(line)
	} else {
		p.lines = append(p.lines, line)
	}
}

// gather gathers candidates, and prints the signal.
func (p *peer) gather() {
	p.mutex.Lock()
	p.lines, p.gathered = nil, make(chan struct{})
	done := p.gathered
	ufrag, password, err := p.agent.GetLocalUserCredentials()
	must("credentials", err)
	if *trickle {
		fmt.Printf("signal %s %s\n", ufrag, password)
	}
	p.mutex.Unlock()
	must("gather", p.agent.GatherCandidates())
	if *trickle {
		return
	}
	<-done
	p.mutex.Lock()
	defer p.mutex.Unlock()
	fmt.Printf("signal %s %s %s\n", ufrag, password, strings.Join(p.lines, ","))
}

func (p *peer) restart() {
	if err := p.agent.Restart("", ""); err != nil {
		report("pion: restart: %v", err)
		return
	}
	p.remoteUfrag = ""
	report("session begins")
	p.gather()
}

func (p *peer) add(line string) {
	c, err := ice.UnmarshalCandidate(strings.TrimPrefix(line, "candidate:"))
	if err == nil {
		err = p.agent.AddRemoteCandidate(c)
	}
	if err != nil {
		report("pion: candidate %s: %v", line, err)
	}
}

// signal takes the other peer's signal. Other credentials than before mean a restart.
func (p *peer) signal(words []string) {
	if len(words) < 2 {
		report("pion: malformed signal")
		return
	}
	if p.remoteUfrag != "" && p.remoteUfrag != words[0] {
		p.restart()
	}
	if p.begun && p.remoteUfrag != words[0] {
		must("remote", p.agent.SetRemoteCredentials(words[0], words[1]))
	}
	p.remoteUfrag = words[0]
	if len(words) > 2 {
		for _, line := range strings.Split(words[2], ",") {
			p.add(line)
		}
	}
	if !p.begun {
		p.begun = true
		go p.connect(words[0], words[1])
	}
}

func (p *peer) connect(ufrag, password string) {
	join := p.agent.Accept
	if p.controlling {
		join = p.agent.Dial
	}
	conn, err := join(context.Background(), ufrag, password)
	if err != nil {
		report("pion: connect: %v", err)
		return
	}
	p.mutex.Lock()
	p.conn = conn
	p.mutex.Unlock()
	bytes := make([]byte, 2048)
	for {
		n, err := conn.Read(bytes)
		if err != nil {
			report("pion: read: %v", err)
			return
		}
		report("heard %s", bytes[:n])
	}
}

func (p *peer) say(text string) {
	p.mutex.Lock()
	conn := p.conn
	p.mutex.Unlock()
	if conn == nil {
		report("pion: there is no path yet: not sent")
		return
	}
	if _, err := conn.Write([]byte(text)); err != nil {
		report("pion: not sent: %v", err)
	}
}

// take takes a line of standard input, and returns whether the program goes on.
func (p *peer) take(line string) bool {
	switch {
	case strings.HasPrefix(line, "signal "):
		p.signal(strings.SplitN(line[len("signal "):], " ", 3))
	case strings.HasPrefix(line, "candidate:"):
		p.add(line)
	case line == "/restart":
		p.restart()
	case line == "/quit":
		return false
	case line != "":
		p.say(line)
	}
	return true
}

func main() {
	flag.Var(&addresses, "a", "address to bind")
	flag.Parse()
	role := flag.Arg(0)
	if flag.NArg() != 1 || (role != "controlling" && role != "controlled") {
		flag.Usage()
		os.Exit(2)
	}
	p := &peer{controlling: role == "controlling"}
	p.begin()
	in := bufio.NewScanner(os.Stdin)
	in.Buffer(make([]byte, 1<<16), 1<<20)
	for in.Scan() && p.take(strings.TrimRight(in.Text(), "\r")) {
	}
	_ = p.agent.Close()
}
