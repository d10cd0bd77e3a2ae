package main

import (
	"fmt"
	"log"
	"os"
	"sync"
)

type Logger struct {
	mu     sync.Mutex
	prefix string
	lines  int
}

func (l *Logger) Log(msg string) {
	l.mu.Lock()
	defer l.mu.Unlock()
	l.lines++
	fmt.Println(l.prefix, msg)
}

type Service struct {
	*Logger
	queue chan string
	quit  chan struct{}
	wg    sync.WaitGroup
}

func NewService(prefix string) *Service {
	s := &Service{
		Logger: &Logger{prefix: prefix},
		queue:  make(chan string, 2),
		quit:   make(chan struct{}),
	}
	s.wg.Add(1)
	go s.loop()
	return s
}

func (s *Service) loop() {
	defer s.wg.Done()
	for {
		select {
		case msg, ok := <-s.queue:
			if !ok {
				return
			}
			s.Log(msg)
		case <-s.quit:
			s.Log("quit")
			return
		}
	}
}

func (s *Service) Close() {
	close(s.quit)
	s.wg.Wait()
}

func main() {
	s := NewService("svc:")
	s.queue <- "one"
	s.queue <- "two"
	s.Close()
	if s.lines < 1 {
		log.Fatal("no lines")
		os.Exit(1)
	}
}
