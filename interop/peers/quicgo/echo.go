package main

import (
	"bytes"
	"context"
	"encoding/binary"
	"errors"
	"fmt"
	"io"
	"log"
	"time"

	"github.com/lucas-clemente/quic-go"
	"golang.org/x/sync/errgroup"
)

const datagramLength = 200

// serveEcho sends back what comes: a bidirectional stream on itself, a unidirectional one on one of its own, datagrams as
// they are.
func serveEcho(connection quic.Connection) {
	go serveDatagrams(connection)
	go serveUnidirectional(connection)
	for {
		stream, err := connection.AcceptStream(context.Background())
		if err != nil {
			return
		}
		go copyBack(stream, stream)
	}
}

func serveDatagrams(connection quic.Connection) {
	for {
		datagram, err := connection.ReceiveMessage()
		if err != nil {
			return
		}
		if err := connection.SendMessage(datagram); err != nil {
			log.Println("datagram:", err)
		}
	}
}

func serveUnidirectional(connection quic.Connection) {
	for {
		from, err := connection.AcceptUniStream(context.Background())
		if err != nil {
			return
		}
		go func() {
			to, err := connection.OpenUniStreamSync(context.Background())
			if err != nil {
				return
			}
			copyBack(to, from)
		}()
	}
}

func copyBack(to io.WriteCloser, from io.Reader) {
	if _, err := io.Copy(to, from); err != nil {
		log.Println("echo:", err)
	}
	to.Close()
}

// content is the bytes of the stream or datagram with a number.
func content(number uint64, length int) []byte {
	state := (number+1)*0x9e3779b97f4a7c15 | 1
	out := binary.BigEndian.AppendUint64(nil, number)
	for len(out) < length {
		state ^= state << 13
		state ^= state >> 7
		state ^= state << 17
		out = binary.LittleEndian.AppendUint64(out, state)
	}
	return out[:length]
}

// numberOf is the number of received bytes, if they are what follows from it.
func numberOf(received []byte, length int) (uint64, error) {
	if len(received) < 8 {
		return 0, errors.New("an echo is too short")
	}
	number := binary.BigEndian.Uint64(received)
	if !bytes.Equal(received, content(number, length)) {
		return 0, fmt.Errorf("echo %d differs", number)
	}
	return number, nil
}

// fetchEcho has streams and datagrams echoed, and prints how many of each came back.
func fetchEcho(connection quic.Connection, o *options) error {
	group, ctx := errgroup.WithContext(context.Background())
	for i := 0; i < o.bidirectional; i++ {
		number := uint64(i)
		group.Go(func() error { return echoBidirectional(ctx, connection, number, o.streamLength) })
	}
	for i := 0; i < o.unidirectional; i++ {
		number := uint64(i)
		group.Go(func() error { return sendUnidirectional(ctx, connection, number, o.streamLength) })
	}
	back, err := receiveUnidirectional(ctx, connection, o)
	if err != nil {
		return err
	}
	if err := group.Wait(); err != nil {
		return err
	}
	datagrams, err := echoDatagrams(connection, o.datagrams)
	if err != nil {
		return err
	}
	fmt.Printf("echo bidirectional=%d unidirectional=%d datagrams=%d\n", o.bidirectional, back, datagrams)
	return nil
}

func echoBidirectional(ctx context.Context, connection quic.Connection, number uint64, length int) error {
	stream, err := connection.OpenStreamSync(ctx)
	if err != nil {
		return err
	}
	sent := make(chan error, 1)
	go func() {
		_, err := stream.Write(content(number, length))
		stream.Close()
		sent <- err
	}()
	received, err := io.ReadAll(stream)
	if err != nil {
		return err
	}
	back, err := numberOf(received, length)
	if err == nil && back != number {
		err = fmt.Errorf("stream %d received echo %d", number, back)
	}
	if err != nil {
		return err
	}
	return <-sent
}

func sendUnidirectional(ctx context.Context, connection quic.Connection, number uint64, length int) error {
	stream, err := connection.OpenUniStreamSync(ctx)
	if err != nil {
		return err
	}
	if _, err := stream.Write(content(number, length)); err != nil {
		return err
	}
	return stream.Close()
}

// receiveUnidirectional reads the streams that the server opens, which carry each number once.
func receiveUnidirectional(ctx context.Context, connection quic.Connection, o *options) (int, error) {
	numbers := make(chan uint64, o.unidirectional)
	var group errgroup.Group
	for i := 0; i < o.unidirectional; i++ {
		group.Go(func() error {
			stream, err := connection.AcceptUniStream(ctx)
			if err != nil {
				return err
			}
			received, err := io.ReadAll(stream)
			if err != nil {
				return err
			}
			number, err := numberOf(received, o.streamLength)
			numbers <- number
			return err
		})
	}
	if err := group.Wait(); err != nil {
		return 0, err
	}
	close(numbers)
	seen := map[uint64]bool{}
	for number := range numbers {
		seen[number] = true
	}
	return len(seen), nil
}

// echoDatagrams sends datagrams, a few at a time, and counts the different ones that come back.
func echoDatagrams(connection quic.Connection, count int) (int, error) {
	received := make(chan []byte, count)
	go func() {
		for {
			datagram, err := connection.ReceiveMessage()
			if err != nil {
				return
			}
			received <- datagram
		}
	}()
	for i := 0; i < count; i++ {
		if err := connection.SendMessage(content(uint64(i), datagramLength)); err != nil {
			return 0, err
		}
		if i%8 == 7 {
			time.Sleep(2 * time.Millisecond)
		}
	}
	seen := map[uint64]bool{}
	for len(seen) < count {
		select {
		case datagram := <-received:
			number, err := numberOf(datagram, datagramLength)
			if err != nil {
				return 0, err
			}
			seen[number] = true
		case <-time.After(time.Second):
			return len(seen), nil
		}
	}
	return len(seen), nil
}
