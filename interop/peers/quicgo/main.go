// Quicgo is a QUIC peer over quic-go: HTTP/3, HTTP/0.9 (hq-interop) and an echo of streams and datagrams, as server or as
// client. It prints the same lines as the peer over quinn. The server ends when its standard input ends.
package main

import (
	"flag"
	"fmt"
	"log"
	"net"
	"os"
	"time"

	"github.com/lucas-clemente/quic-go"
)

// options are those of both roles.
type options struct {
	protocol                                 string
	port                                     int
	retry                                    bool
	streamWindow, receiveWindow              uint64
	maxBidirectional, maxUnidirectional      int64
	certificate, key, files, root            string
	parallel, times, abandon                 int
	cancelAfter                              int64
	post                                     string
	priorities, resume, idle                 bool
	bidirectional, unidirectional, datagrams int
	streamLength                             int
	paths                                    []string
}

func parse(role string, arguments []string) *options {
	o := &options{}
	set := flag.NewFlagSet(role, flag.ExitOnError)
	set.StringVar(&o.protocol, "protocol", "h3", "h3, hq or echo")
	set.IntVar(&o.port, "port", 0, "the port of the server, on 127.0.0.1")
	set.BoolVar(&o.retry, "retry", false, "clients have to prove their address by a Retry packet")
	set.Uint64Var(&o.streamWindow, "stream-window", 0, "how many bytes of a stream may be received and not read")
	set.Uint64Var(&o.receiveWindow, "receive-window", 0, "how many bytes of all streams together may be received and not read")
	set.Int64Var(&o.maxBidirectional, "max-bidirectional", 0, "how many bidirectional streams the other endpoint may have open")
	set.Int64Var(&o.maxUnidirectional, "max-unidirectional", 0, "how many unidirectional streams the other endpoint may have open")
	set.StringVar(&o.certificate, "certificate", "", "the certificate, in PEM")
	set.StringVar(&o.key, "key", "", "its private key, in PEM")
	set.StringVar(&o.files, "files", ".", "the folder of the files")
	set.StringVar(&o.root, "root", "", "the root certificate, in PEM")
	set.IntVar(&o.parallel, "parallel", 100, "how many requests run at a time")
	set.IntVar(&o.times, "times", 1, "how often the paths are fetched")
	set.IntVar(&o.abandon, "abandon", 0, "this many streams are abandoned first, in six ways in turn")
	set.Int64Var(&o.cancelAfter, "cancel-after", 0, "a download is cancelled after this many bytes")
	set.StringVar(&o.post, "post", "", "each path is sent this file instead of being fetched")
	set.BoolVar(&o.priorities, "priorities", false, "each request has the next lower urgency")
	set.BoolVar(&o.resume, "resume", false, "a second connection resumes the first with 0-RTT")
	set.BoolVar(&o.idle, "idle", false, "the paths are fetched once more after twelve idle seconds")
	set.IntVar(&o.bidirectional, "bidirectional", 0, "how many bidirectional streams are echoed")
	set.IntVar(&o.unidirectional, "unidirectional", 0, "how many unidirectional streams are echoed")
	set.IntVar(&o.datagrams, "datagrams", 0, "how many datagrams are echoed")
	set.IntVar(&o.streamLength, "stream-length", 10_000, "the length of each echoed stream")
	set.Parse(arguments) // ends the process on an error
	o.paths = set.Args()
	return o
}

// config is quic-go's configuration; what was not given stays as its default.
func (o *options) config() *quic.Config {
	return &quic.Config{
		EnableDatagrams:                true,
		MaxIdleTimeout:                 30 * time.Second,
		InitialStreamReceiveWindow:     o.streamWindow,
		MaxStreamReceiveWindow:         o.streamWindow,
		InitialConnectionReceiveWindow: o.receiveWindow,
		MaxConnectionReceiveWindow:     o.receiveWindow,
		MaxIncomingStreams:             o.maxBidirectional,
		MaxIncomingUniStreams:          o.maxUnidirectional,
		RequireAddressValidation:       func(net.Addr) bool { return o.retry },
		TokenStore:                     quic.NewLRUTokenStore(10, 10),
	}
}

// protocolName is the name of the protocol in TLS (ALPN).
func (o *options) protocolName() string {
	if o.protocol == "hq" {
		return "hq-interop"
	}
	return o.protocol
}

func main() {
	log.SetFlags(0)
	if len(os.Args) < 2 {
		log.Fatal("quicgo serve | fetch [options] [paths]")
	}
	role, arguments := os.Args[1], os.Args[2:]
	var err error
	switch role {
	case "serve":
		err = serve(parse(role, arguments))
	case "fetch":
		err = fetch(parse(role, arguments))
	default:
		err = fmt.Errorf("unknown role %q", role)
	}
	if err != nil {
		fmt.Println("failed:", err)
		os.Exit(1)
	}
}
