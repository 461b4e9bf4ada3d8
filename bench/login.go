// So many client and server conversations of xdg-go/scram that talk to one another: words SHA1 or SHA256 and a number. It prints how
// many were accepted by both sides.
package main

import (
	"fmt"
	"os"
	"strconv"

	"github.com/xdg-go/scram"
)

func main() {
	if len(os.Args) != 3 {
		os.Exit(3)
	}
	hash := scram.SHA256
	if os.Args[1] == "SHA1" {
		hash = scram.SHA1
	}
	count, fault := strconv.Atoi(os.Args[2])
	if fault != nil {
		os.Exit(3)
	}
	client, fault := hash.NewClientUnprepped("user", "pencil", "")
	if fault != nil {
		panic(fault)
	}
	keys := client.GetStoredCredentials(scram.KeyFactors{Salt: "sixteen bytes of", Iters: 4096})
	server, fault := hash.NewServer(func(string) (scram.StoredCredentials, error) { return keys, nil })
	if fault != nil {
		panic(fault)
	}
	accepted := 0
	for login := 0; login < count; login++ {
		ours, theirs := client.NewConversation(), server.NewConversation()
		message, fault := ours.Step("")
		for turn := 0; fault == nil && turn < 2; turn++ {
			if message, fault = theirs.Step(message); fault == nil {
				message, fault = ours.Step(message)
			}
		}
		if fault == nil && ours.Valid() && theirs.Valid() {
			accepted++
		}
	}
	fmt.Println(accepted)
}
