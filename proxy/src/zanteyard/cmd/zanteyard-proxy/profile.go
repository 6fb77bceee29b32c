//go:build profile

package main

import (
	"fmt"
	"os"
	"os/signal"
	"runtime"
	"runtime/pprof"
	"syscall"
)

// Built with the tag `profile`, the program writes where its processor time went to the file that ZANTEYARD_PROFILE names,
// until SIGUSR1. At each SIGUSR2 it writes what its memory holds to that name with `.heap` and a number, and what its
// goroutines wait for with `.goroutines`.
func init() {
	path := os.Getenv("ZANTEYARD_PROFILE")
	if path == "" {
		return
	}
	file, err := os.Create(path)
	if err != nil {
		panic(err)
	}
	if err := pprof.StartCPUProfile(file); err != nil {
		panic(err)
	}
	ends, looks := make(chan os.Signal, 1), make(chan os.Signal, 1)
	signal.Notify(ends, syscall.SIGUSR1)
	signal.Notify(looks, syscall.SIGUSR2)
	go func() {
		<-ends
		pprof.StopCPUProfile()
		file.Close()
	}()
	go func() {
		for n := 1; ; n++ {
			<-looks
			writeProfile(fmt.Sprintf("%s.heap%d", path, n), "heap", 0)
			writeProfile(fmt.Sprintf("%s.goroutines%d", path, n), "goroutine", 2)
		}
	}()
}

func writeProfile(path, name string, detail int) {
	file, err := os.Create(path)
	if err != nil {
		return
	}
	defer file.Close()
	if name == "heap" {
		var its runtime.MemStats
		runtime.GC()
		runtime.ReadMemStats(&its)
		fmt.Fprintf(os.Stderr, "heap: %d MiB in use, %d idle, %d released, %d from the system\n", its.HeapInuse>>20, its.HeapIdle>>20,
			its.HeapReleased>>20, its.Sys>>20)
	}
	_ = pprof.Lookup(name).WriteTo(file, detail)
}
