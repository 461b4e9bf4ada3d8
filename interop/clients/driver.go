// Connects with the Go driver, sends a ping and disconnects. Words: HOST PORT MECHANISM, or --version.
package main

import (
	"context"
	"fmt"
	"os"
	"strings"
	"time"

	"go.mongodb.org/mongo-driver/mongo"
	"go.mongodb.org/mongo-driver/mongo/options"
	"go.mongodb.org/mongo-driver/version"
)

func main() {
	if len(os.Args) == 2 && os.Args[1] == "--version" {
		fmt.Println(version.Driver)
		return
	}
	if len(os.Args) != 4 {
		os.Exit(3)
	}
	asked := options.Client().SetHosts([]string{os.Args[1] + ":" + os.Args[2]}).SetServerSelectionTimeout(10 * time.Second).SetAuth(options.Credential{
		AuthMechanism: os.Args[3], AuthSource: "admin", Username: os.Getenv("INTEROP_USER"), Password: os.Getenv("INTEROP_PASSWORD"), PasswordSet: true})
	end, cancel := context.WithTimeout(context.Background(), 20*time.Second)
	defer cancel()
	client, fault := mongo.Connect(end, asked)
	if fault == nil {
		fault = client.Ping(end, nil)
	}
	if fault != nil {
		fmt.Println(fault)
		if strings.Contains(fault.Error(), "AuthenticationFailed") {
			os.Exit(1)
		}
		os.Exit(2)
	}
	client.Disconnect(end)
}
