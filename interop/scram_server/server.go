// A server of its own for one connection after another: hello, and SCRAM by the server conversation of xdg-go/scram. It prints its
// port, and answers until its standard input ends. The user and the password are INTEROP_USER and INTEROP_PASSWORD.
package main

import (
	"crypto/md5"
	"encoding/binary"
	"encoding/hex"
	"fmt"
	"io"
	"net"
	"os"

	"github.com/xdg-go/scram"
	"go.mongodb.org/mongo-driver/bson"
	"go.mongodb.org/mongo-driver/bson/primitive"
)

var user, password = os.Getenv("INTEROP_USER"), os.Getenv("INTEROP_PASSWORD")

// A server of the mechanism, which keeps the keys of the one user.
func serverOf(mechanism string) *scram.Server {
	hash, prepared := scram.SHA256, password
	if mechanism == "SCRAM-SHA-1" {
		sum := md5.Sum([]byte(user + ":mongo:" + password))
		hash, prepared = scram.SHA1, hex.EncodeToString(sum[:])
	}
	client, fault := hash.NewClientUnprepped(user, prepared, "")
	if fault != nil {
		panic(fault)
	}
	keys := client.GetStoredCredentials(scram.KeyFactors{Salt: "sixteen bytes of", Iters: 4096})
	server, fault := hash.NewServer(func(name string) (scram.StoredCredentials, error) {
		if name != user {
			return scram.StoredCredentials{}, fmt.Errorf("no such user")
		}
		return keys, nil
	})
	if fault != nil {
		panic(fault)
	}
	return server
}

// One step of the conversation, as a reply.
func step(conversation *scram.ServerConversation, payload []byte) bson.D {
	answer, fault := conversation.Step(string(payload))
	if fault != nil {
		return bson.D{{"ok", 0.0}, {"errmsg", "Authentication failed."}, {"code", int32(18)}, {"codeName", "AuthenticationFailed"}}
	}
	return bson.D{{"conversationId", int32(1)}, {"done", conversation.Done()}, {"payload", primitive.Binary{Data: []byte(answer)}}, {"ok", 1.0}}
}

func start(command bson.Raw) (*scram.ServerConversation, bson.D) {
	mechanism, _ := command.Lookup("mechanism").StringValueOK()
	_, payload, _ := command.Lookup("payload").BinaryOK()
	conversation := serverOf(mechanism).NewConversation()
	return conversation, step(conversation, payload)
}

func serve(stream net.Conn) {
	defer stream.Close()
	var conversation *scram.ServerConversation
	for id := int32(1); ; id++ {
		var head [16]byte
		if _, fault := io.ReadFull(stream, head[:]); fault != nil {
			return
		}
		rest := make([]byte, binary.LittleEndian.Uint32(head[:])-16)
		if _, fault := io.ReadFull(stream, rest); fault != nil {
			return
		}
		command := bson.Raw(rest[5:])
		elements, fault := command.Elements()
		if fault != nil || len(elements) == 0 {
			return
		}
		var reply bson.D
		switch elements[0].Key() {
		case "hello", "isMaster", "ismaster":
			reply = bson.D{{"isWritablePrimary", true}, {"maxBsonObjectSize", int32(16777216)}, {"maxMessageSizeBytes", int32(48000000)}, {"maxWriteBatchSize", int32(100000)},
				{"minWireVersion", int32(0)}, {"maxWireVersion", int32(21)}, {"saslSupportedMechs", bson.A{"SCRAM-SHA-1", "SCRAM-SHA-256"}}}
			if asked, ok := command.Lookup("speculativeAuthenticate").DocumentOK(); ok {
				var first bson.D
				conversation, first = start(asked)
				if conversation.Valid() || first[0].Key == "conversationId" {
					reply = append(reply, bson.E{"speculativeAuthenticate", first[:3]})
				}
			}
			reply = append(reply, bson.E{"ok", 1.0})
		case "saslStart":
			conversation, reply = start(command)
		case "saslContinue":
			_, payload, _ := command.Lookup("payload").BinaryOK()
			reply = step(conversation, payload)
		default:
			reply = bson.D{{"ok", 1.0}}
		}
		body, fault := bson.Marshal(reply)
		if fault != nil {
			return
		}
		frame := make([]byte, 21, 21+len(body))
		binary.LittleEndian.PutUint32(frame[0:], uint32(21+len(body)))
		binary.LittleEndian.PutUint32(frame[4:], uint32(id))
		copy(frame[8:], head[4:8])
		binary.LittleEndian.PutUint32(frame[12:], 2013)
		if _, fault := stream.Write(append(frame, body...)); fault != nil {
			return
		}
	}
}

func main() {
	listener, fault := net.Listen("tcp", "127.0.0.1:0")
	if fault != nil {
		panic(fault)
	}
	fmt.Println(listener.Addr().(*net.TCPAddr).Port)
	go func() {
		io.Copy(io.Discard, os.Stdin)
		os.Exit(0)
	}()
	for {
		stream, fault := listener.Accept()
		if fault != nil {
			return
		}
		go serve(stream)
	}
}
