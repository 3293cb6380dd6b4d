// A service that asks the node beside it, before each call, whom to use: choose.py in Go, with the same input and
// output. Run it in this folder by `go run . [PORT]`: go.mod says where the package of clients/go lies.
//
// It asks before each call, so what the node knows counts at once; an answer takes less than a millisecond. A service
// with thousands of calls a second follows the node by Watch instead, in a goroutine of its own, and chooses from the
// table that this goroutine keeps.
package main

import (
	"bufio"
	"context"
	"fmt"
	"math/rand"
	"os"
	"time"

	"lifeguard-agent.example/members"
)

// othersAlive gives the members of a table that are alive, but for the node itself.
func othersAlive(table members.Table) []members.Member {
	var others []members.Member
	for _, it := range table.Members {
		if it.Status == members.Alive && it.Name != table.Name {
			others = append(others, it)
		}
	}
	return others
}

func main() {
	rand.Seed(time.Now().UnixNano())
	client, err := members.New("127.0.0.1:" + append(os.Args, "8946")[1])
	if err != nil {
		fmt.Fprintln(os.Stderr, err)
		os.Exit(2)
	}
	client.Timeout = 200 * time.Millisecond
	var others []members.Member
	for calls := bufio.NewScanner(os.Stdin); calls.Scan(); {
		if table, err := client.Table(context.Background()); err == nil {
			others = othersAlive(table)
		} else { // What was known before stays: a better guess than nobody.
			fmt.Fprintf(os.Stderr, "the node doesn't answer (%v): the last answer is used\n", err)
		}
		if len(others) == 0 {
			fmt.Println("nobody at nowhere")
			continue
		}
		chosen := others[rand.Intn(len(others))]
		fmt.Println(chosen.Name, "at", chosen.Address)
	}
}
