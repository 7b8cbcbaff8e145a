// page-go: a small server for tests. It takes its listening sockets by LISTEN_FDS, and answers each request with a line:
// `version V process P`, V from the environment (VERSION), and the status from there too (CODE). /slow takes a second.
// SIGTERM finishes.
package main

import (
	"context"
	"fmt"
	"net"
	"net/http"
	"os"
	"os/signal"
	"strconv"
	"sync"
	"syscall"
	"time"
)

const first = 3

func page(answer http.ResponseWriter, request *http.Request) {
	if request.URL.Path == "/slow" {
		time.Sleep(time.Second)
	}
	if code, err := strconv.Atoi(os.Getenv("CODE")); err == nil {
		answer.WriteHeader(code)
	}
	fmt.Fprintf(answer, "version %s process %d\n", os.Getenv("VERSION"), os.Getpid())
}

func main() {
	count, err := strconv.Atoi(os.Getenv("LISTEN_FDS"))
	if err != nil {
		panic(err)
	}
	server := &http.Server{Handler: http.HandlerFunc(page)}
	var serving sync.WaitGroup
	for at := 0; at < count; at++ {
		listener, err := net.FileListener(os.NewFile(uintptr(first+at), "listener"))
		if err != nil {
			panic(err)
		}
		serving.Add(1)
		go func() {
			server.Serve(listener)
			serving.Done()
		}()
	}
	stop := make(chan os.Signal, 1)
	signal.Notify(stop, syscall.SIGTERM)
	<-stop
	waiting, cancel := context.WithTimeout(context.Background(), 20*time.Second)
	defer cancel()
	server.Shutdown(waiting)
	serving.Wait()
}
