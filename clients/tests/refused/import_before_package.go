import "fmt"

package main
