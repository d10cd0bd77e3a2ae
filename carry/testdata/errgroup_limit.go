package main

import (
	"context"
	"errors"
	"fmt"

	"golang.org/x/sync/errgroup"
)

type Task struct {
	ID   int
	Cost int
}

var ErrTooExpensive = errors.New("task too expensive")

func process(ctx context.Context, t Task) (int, error) {
	if t.Cost > 50 {
		return 0, fmt.Errorf("task %d: %w", t.ID, ErrTooExpensive)
	}
	select {
	case <-ctx.Done():
		return 0, ctx.Err()
	default:
	}
	return t.Cost * 2, nil
}

func main() {
	tasks := []Task{{1, 10}, {2, 20}, {3, 70}}
	results := make(chan int, len(tasks))
	g, ctx := errgroup.WithContext(context.Background())
	g.SetLimit(2)
	for _, task := range tasks {
		task := task
		g.Go(func() error {
			r, err := process(ctx, task)
			if err != nil {
				return err
			}
			results <- r
			return nil
		})
	}
	if err := g.Wait(); err != nil {
		if errors.Is(err, ErrTooExpensive) {
			fmt.Println("too expensive:", err)
		} else {
			fmt.Println("failed:", err)
		}
	}
	close(results)
	sum := 0
	for r := range results {
		sum += r
	}
	fmt.Println("sum:", sum <= 60)
}
