package main

import (
	"context"
	"crypto/sha256"
	"crypto/tls"
	"fmt"
	"io"
	"log"
	"net"
	"net/http"
	"os"
	"path"
	"path/filepath"
	"strings"

	"github.com/lucas-clemente/quic-go"
	"github.com/lucas-clemente/quic-go/http3"
)

const (
	longestLine = 4096
	notFound    = 404
)

func serve(o *options) error {
	certificate, err := tls.LoadX509KeyPair(o.certificate, o.key)
	if err != nil {
		return err
	}
	socket, err := net.ListenPacket("udp", fmt.Sprintf("127.0.0.1:%d", o.port))
	if err != nil {
		return err
	}
	go endWithInput()
	fmt.Println("ready", socket.LocalAddr().(*net.UDPAddr).Port)
	config := &tls.Config{Certificates: []tls.Certificate{certificate}}
	if o.protocol == "h3" {
		server := http3.Server{TLSConfig: http3.ConfigureTLSConfig(config), QuicConfig: o.config(), Handler: site(o.files)}
		return server.Serve(socket)
	}
	config.NextProtos = []string{o.protocolName()}
	return accept(o, socket, config)
}

// endWithInput ends the process when standard input ends or cannot be read.
func endWithInput() {
	io.Copy(io.Discard, os.Stdin)
	os.Exit(0)
}

// site serves files, and answers a form with its length and hash.
func site(folder string) http.Handler {
	files := http.FileServer(http.Dir(folder))
	return http.HandlerFunc(func(w http.ResponseWriter, r *http.Request) {
		switch {
		case r.Method == http.MethodPost && r.URL.Path == "/unread":
			// the body is not read: quic-go stops it after the answer
			fmt.Fprint(w, "the body was not read")
		case r.Method == http.MethodPost:
			hash := sha256.New()
			length, err := io.Copy(hash, r.Body)
			if err != nil {
				log.Println("body:", err)
				return
			}
			fmt.Fprintf(w, "%d %x", length, hash.Sum(nil))
		default:
			files.ServeHTTP(w, r)
		}
	})
}

// accept serves the connections of the protocols that are not HTTP/3.
func accept(o *options, socket net.PacketConn, config *tls.Config) error {
	listener, err := quic.ListenEarly(socket, config, o.config())
	if err != nil {
		return err
	}
	for {
		connection, err := listener.Accept(context.Background())
		if err != nil {
			return err
		}
		if o.protocol == "echo" {
			go serveEcho(connection)
		} else {
			go serveFiles(connection, o.files)
		}
	}
}

func serveFiles(connection quic.Connection, folder string) {
	for {
		stream, err := connection.AcceptStream(context.Background())
		if err != nil {
			return
		}
		go func() {
			if err := serveFile(stream, folder); err != nil {
				log.Println("hq:", err)
			}
		}()
	}
}

// serveFile answers a line by a file.
func serveFile(stream quic.Stream, folder string) error {
	line, err := io.ReadAll(io.LimitReader(stream, longestLine))
	if err != nil {
		stream.CancelWrite(notFound)
		return err
	}
	method, name, _ := strings.Cut(strings.TrimSpace(string(line)), " ")
	if method != "GET" {
		stream.CancelWrite(notFound)
		return fmt.Errorf("no GET in %q", line)
	}
	name, _, _ = strings.Cut(name, "?")
	file, err := os.Open(filepath.Join(folder, path.Clean("/"+name)))
	if err != nil {
		stream.CancelWrite(notFound)
		return nil
	}
	defer file.Close()
	if _, err := io.Copy(stream, file); err != nil {
		return err
	}
	return stream.Close()
}
