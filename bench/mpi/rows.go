// What run.py measures beside kpn-mpi: a row of 8 goroutines, 4 in each of two processes, over TCP on this machine. The
// first one counts, the next ones copy, and the last one adds up. Words: the number of items, and the capacity of the
// channels. With a third word it is the second process, and the word is the address of the first one.
package main

import (
	"bufio"
	"encoding/binary"
	"fmt"
	"io"
	"net"
	"os"
	"os/exec"
	"strconv"
)

func copies(in chan int64, count int, capacity int) chan int64 {
	for ; count > 0; count-- {
		out := make(chan int64, capacity)
		go func(in chan int64) {
			for x := range in {
				out <- x
			}
			close(out)
		}(in)
		in = out
	}
	return in
}

func first(items int64, capacity int) {
	listener, err := net.Listen("tcp", "127.0.0.1:0")
	check(err)
	second := exec.Command(os.Args[0], os.Args[1], os.Args[2], listener.Addr().String())
	second.Stdout = os.Stdout
	check(second.Start())
	connection, err := listener.Accept()
	check(err)
	in := make(chan int64, capacity)
	go func() {
		for x := int64(1); x <= items; x++ {
			in <- x
		}
		close(in)
	}()
	out := copies(in, 3, capacity)
	writer := bufio.NewWriterSize(connection, 1<<16)
	var word [8]byte
	for x := range out {
		binary.LittleEndian.PutUint64(word[:], uint64(x))
		writer.Write(word[:])
		if len(out) == 0 {
			check(writer.Flush())
		}
	}
	check(writer.Flush())
	check(connection.Close())
	check(second.Wait())
}

func second(capacity int, address string) {
	connection, err := net.Dial("tcp", address)
	check(err)
	in := make(chan int64, capacity)
	out := copies(in, 3, capacity)
	go func() {
		reader := bufio.NewReaderSize(connection, 1<<16)
		var word [8]byte
		for {
			if _, err := io.ReadFull(reader, word[:]); err != nil {
				break
			}
			in <- int64(binary.LittleEndian.Uint64(word[:]))
		}
		close(in)
	}()
	sum := int64(0)
	for x := range out {
		sum += x
	}
	fmt.Println(sum)
}

func check(err error) {
	if err != nil {
		fmt.Fprintln(os.Stderr, err)
		os.Exit(1)
	}
}

func main() {
	items, err := strconv.ParseInt(os.Args[1], 10, 64)
	check(err)
	capacity, err := strconv.Atoi(os.Args[2])
	check(err)
	if len(os.Args) > 3 {
		second(capacity, os.Args[3])
	} else {
		first(items, capacity)
	}
}
