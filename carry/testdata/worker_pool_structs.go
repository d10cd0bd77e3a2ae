package main

import (
	"fmt"
	"sync"
)

type Job struct {
	id, n int
}

type Result struct {
	id     int
	square int
	even   bool
}

func worker(jobs <-chan Job, results chan<- Result, wg *sync.WaitGroup) {
	defer wg.Done()
	for job := range jobs {
		results <- Result{job.id, job.n * job.n, job.n%2 == 0}
	}
}

func main() {
	jobs := make(chan Job, 4)
	results := make(chan Result, 4)
	var wg sync.WaitGroup
	for w := 0; w < 2; w++ {
		wg.Add(1)
		go worker(jobs, results, &wg)
	}
	for i := 1; i <= 4; i++ {
		jobs <- Job{id: i, n: i + 1}
	}
	close(jobs)
	wg.Wait()
	close(results)
	sum, evens := 0, 0
	for r := range results {
		sum += r.square
		if r.even {
			evens++
		}
	}
	fmt.Println(sum, evens)
}
