// What a message and a token cost in Go under a table of one key, next to their HMAC by crypto/hmac: nanoseconds of each.
//
// usage: rate MESSAGE TOKEN AUTHENTICATED
package main

import (
	"crypto/hmac"
	"crypto/sha256"
	"fmt"
	"log"
	"os"
	"time"

	"cose"
)

const (
	calls = 50000
	turns = 7
)

// fastest is the time of one call in the fastest of some turns.
func fastest(call func() error) int64 {
	least := int64(1 << 62)
	for turn := 0; turn < turns; turn++ {
		start := time.Now()
		for i := 0; i < calls; i++ {
			if err := call(); err != nil {
				log.Fatal(err)
			}
		}
		if took := time.Since(start).Nanoseconds() / calls; took < least {
			least = took
		}
	}
	return least
}

func read(name string) []byte {
	bytes, err := os.ReadFile(name)
	if err != nil {
		log.Fatal(err)
	}
	return bytes
}

func main() {
	message, token, text := read(os.Args[1]), read(os.Args[2]), read(os.Args[3])
	table, err := cose.NewKeyTable([]byte("\xa2\x01\x04\x20\x44Jefe"))
	if err != nil {
		log.Fatal(err)
	}
	audience := "coap://light.example.com"
	policy := &cose.Policy{CurrentTime: time.Unix(1444064943, 0), Leeway: time.Minute, Audience: &audience}
	fmt.Println(
		fastest(func() error {
			mac := hmac.New(sha256.New, []byte("Jefe"))
			mac.Write(text)
			mac.Sum(nil)
			return nil
		}),
		fastest(func() error { _, err := table.Verify(message, nil); return err }),
		fastest(func() error { _, err := table.VerifyCWT(token, policy, nil); return err }),
	)
}
