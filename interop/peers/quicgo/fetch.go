package main

import (
	"bufio"
	"bytes"
	"context"
	"crypto/sha256"
	"crypto/tls"
	"crypto/x509"
	"errors"
	"fmt"
	"io"
	"net/http"
	"os"
	"sync"
	"time"

	"github.com/lucas-clemente/quic-go"
	"github.com/lucas-clemente/quic-go/http3"
)

const (
	noError     = 0x100 // H3_NO_ERROR (RFC 9114 section 8.1)
	cancelled   = 7
	longestText = 200
)

// client makes requests on one connection.
type client struct {
	o          *options
	body       []byte
	began      time.Time
	early      bool
	transport  *http3.RoundTripper // of HTTP/3 alone
	connection quic.EarlyConnection
	print      sync.Mutex
}

func fetch(o *options) error {
	config, err := clientTLS(o)
	if err != nil {
		return err
	}
	began := time.Now()
	if err := visit(o, config, false); err != nil {
		return err
	}
	if o.resume {
		fmt.Println("resume")
		// the server may be another one after this line
		if _, err := bufio.NewReader(os.Stdin).ReadString('\n'); err != nil {
			return err
		}
		if err := visit(o, config, true); err != nil {
			return err
		}
	}
	fmt.Printf("seconds %.3f\n", time.Since(began).Seconds())
	return nil
}

func clientTLS(o *options) (*tls.Config, error) {
	root, err := os.ReadFile(o.root)
	if err != nil {
		return nil, err
	}
	pool := x509.NewCertPool()
	if !pool.AppendCertsFromPEM(root) {
		return nil, fmt.Errorf("%s has no certificate", o.root)
	}
	return &tls.Config{
		RootCAs:            pool,
		ServerName:         "localhost",
		NextProtos:         []string{o.protocolName()},
		ClientSessionCache: tls.NewLRUClientSessionCache(10),
	}, nil
}

// visit does all that is asked for on one connection.
func visit(o *options, config *tls.Config, early bool) error {
	c := &client{o: o, began: time.Now(), early: early}
	if o.post != "" {
		body, err := os.ReadFile(o.post)
		if err != nil {
			return err
		}
		c.body = body
	}
	if err := c.connect(config); err != nil {
		return err
	}
	err := c.work()
	if early {
		err = c.verdict(err)
	}
	if err != nil {
		return err
	}
	// the server has time to object to the last frames
	select {
	case <-c.connection.Context().Done():
		return errors.New("the connection ended early")
	case <-time.After(100 * time.Millisecond):
	}
	return c.connection.CloseWithError(noError, "done")
}

// verdict prints whether the server accepted 0-RTT. If it did not, all is done again on the same connection.
func (c *client) verdict(err error) error {
	<-c.connection.HandshakeComplete().Done()
	if c.connection.ConnectionState().TLS.Used0RTT {
		fmt.Println("early accepted")
		return err
	}
	fmt.Println("early rejected")
	if errors.Is(err, quic.Err0RTTRejected) {
		c.connection.NextConnection()
		return c.work()
	}
	return err
}

// connect opens a connection. HTTP/3 opens its own at the first request.
func (c *client) connect(config *tls.Config) error {
	address := fmt.Sprintf("127.0.0.1:%d", c.o.port)
	dial := func(ctx context.Context, _ string, config *tls.Config, settings *quic.Config) (quic.EarlyConnection, error) {
		connection, err := quic.DialAddrEarlyContext(ctx, address, config, settings)
		c.connection = connection
		return connection, err
	}
	if c.o.protocol == "h3" {
		c.transport = &http3.RoundTripper{TLSClientConfig: config, QuicConfig: c.o.config(), DisableCompression: true, Dial: dial}
		return nil
	}
	connection, err := dial(context.Background(), address, config, c.o.config())
	if err == nil && !c.early {
		<-connection.HandshakeComplete().Done()
	}
	return err
}

func (c *client) work() error {
	if c.o.protocol == "echo" {
		return fetchEcho(c.connection, c.o)
	}
	for i := 0; i < c.o.abandon; i++ {
		if err := abandon(c.connection, i); err != nil {
			return err
		}
	}
	if err := c.fetchAll(); err != nil {
		return err
	}
	if c.o.idle {
		time.Sleep(12 * time.Second)
		return c.fetchAll()
	}
	return nil
}

// fetchAll makes the requests of the command line, and prints each response as it is complete.
func (c *client) fetchAll() error {
	slots := make(chan struct{}, c.o.parallel)
	failures := make(chan error, c.o.times*len(c.o.paths))
	var group sync.WaitGroup
	number := 0
	for i := 0; i < c.o.times; i++ {
		for _, path := range c.o.paths {
			slots <- struct{}{}
			group.Add(1)
			go func(number int, path string) {
				defer group.Done()
				if err := c.one(number, path); err != nil {
					failures <- fmt.Errorf("%s: %w", path, err)
				}
				<-slots
			}(number, path)
			number++
		}
	}
	group.Wait()
	close(failures)
	var last error
	failed := 0
	for last = range failures {
		fmt.Println("failed", last)
		failed++
	}
	if failed > 0 {
		return fmt.Errorf("%d requests failed, one by %w", failed, last)
	}
	return nil
}

func (c *client) one(number int, path string) error {
	if c.o.protocol == "h3" {
		return c.oneHTTP3(number, path)
	}
	stream, err := c.connection.OpenStreamSync(context.Background())
	if err != nil {
		return err
	}
	if _, err := fmt.Fprintf(stream, "GET %s\r\n", path); err != nil {
		return err
	}
	stream.Close()
	whole, err := c.read(path, "200", stream)
	if err == nil && !whole {
		stream.CancelRead(cancelled)
	}
	return err
}

func (c *client) oneHTTP3(number int, path string) error {
	method, body := http.MethodGet, io.Reader(nil)
	if c.early {
		method = http3.MethodGet0RTT
	}
	if c.body != nil {
		method, body = http.MethodPost, bytes.NewReader(c.body)
	}
	ctx, stop := context.WithCancel(context.Background())
	defer stop()
	request, err := http.NewRequestWithContext(ctx, method, "https://localhost"+path, body)
	if err != nil {
		return err
	}
	if c.o.priorities {
		// later requests are the more urgent ones (RFC 9218 section 4.1)
		request.Header.Set("priority", fmt.Sprintf("u=%d", 7-number%8))
	}
	response, err := c.transport.RoundTrip(request)
	if err != nil {
		return err
	}
	defer response.Body.Close()
	_, err = c.read(path, fmt.Sprint(response.StatusCode), response.Body)
	return err
}

// read reads a response and prints it; whole is false if it was cancelled.
func (c *client) read(path, status string, from io.Reader) (whole bool, err error) {
	hash, text := sha256.New(), new(bytes.Buffer)
	length, buffer := int64(0), make([]byte, 1<<16)
	for !whole {
		n, err := from.Read(buffer)
		hash.Write(buffer[:n])
		if text.Len() < longestText {
			text.Write(buffer[:n])
		}
		length += int64(n)
		if c.o.cancelAfter > 0 && length >= c.o.cancelAfter {
			status = "cancelled"
			break
		}
		if err != nil && err != io.EOF {
			return false, err
		}
		whole = err == io.EOF
	}
	c.print.Lock()
	defer c.print.Unlock()
	fmt.Printf("file %s %s %d %x %d\n", path, status, length, hash.Sum(nil), time.Since(c.began).Milliseconds())
	if c.body != nil {
		fmt.Printf("answer %s %s\n", path, text)
	}
	return whole, nil
}
