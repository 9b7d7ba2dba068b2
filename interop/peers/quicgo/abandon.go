package main

import (
	"context"
	"errors"
	"time"

	"github.com/lucas-clemente/quic-go"
)

const abandoned = 5

// abandon opens a stream of HTTP/0.9 and gives it up, in one of six ways. The server may stop the request at any time, so
// results of writing are not looked at.
func abandon(connection quic.Connection, number int) error {
	ctx, stop := context.WithTimeout(context.Background(), 10*time.Second)
	defer stop()
	stream, err := connection.OpenStreamSync(ctx)
	if err != nil {
		return err
	}
	request := func(line string) {
		stream.Write([]byte(line))
		stream.Close()
	}
	switch number % 6 {
	case 0: // half a request, then a reset and a stop
		stream.Write([]byte("GET /1"))
		stream.CancelWrite(abandoned)
		stream.CancelRead(abandoned)
	case 1: // a reset before the first byte
		stream.CancelWrite(abandoned)
		stream.CancelRead(abandoned)
	case 2: // a stop behind the request
		request("GET /1m\r\n")
		stream.CancelRead(abandoned)
	case 3: // a stop inside the response
		request("GET /1m\r\n")
		stream.Read(make([]byte, 1000))
		stream.CancelRead(abandoned)
	case 4: // a stop before the request
		stream.CancelRead(abandoned)
		request("GET /1m\r\n")
	default: // a file that does not exist: the server resets its side
		request("GET /none\r\n")
		if n, _ := stream.Read(make([]byte, 1000)); n > 0 {
			return errors.New("a missing file was sent")
		}
	}
	return nil
}
