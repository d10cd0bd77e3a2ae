package main

import (
	"context"
	"errors"
	"fmt"

	"golang.org/x/sync/errgroup"
)

func main() {
	group, ctx := errgroup.WithContext(context.Background())
	group.Go(func() error { return errors.New("no luck") })
	group.Go(func() error {
		<-ctx.Done()
		return ctx.Err()
	})
	fmt.Println(group.Wait())
	fmt.Println(ctx.Err())
}
