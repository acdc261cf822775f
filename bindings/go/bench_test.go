// What calls cost, next to HMAC alone: go test -run none -bench .

package cose_test

import (
	"bytes"
	"crypto/hmac"
	"crypto/sha256"
	"io"
	"testing"
	"time"

	"cose"
)

var jefe = []byte("\xa2\x01\x04\x20\x44Jefe")

func made(b *testing.B, payload []byte) []byte {
	message, err := cose.Make(jefe, payload, nil)
	if err != nil {
		b.Fatal(err)
	}
	return message
}

// BenchmarkHMAC computes what the message of 44 bytes is authenticated by.
func BenchmarkHMAC(b *testing.B) {
	text := structure("MAC0", []byte{0xa1, 0x01, 0x05}, nil, []byte("hi"))
	for i := 0; i < b.N; i++ {
		mac := hmac.New(sha256.New, []byte("Jefe"))
		mac.Write(text)
		mac.Sum(nil)
	}
}

func BenchmarkVerify44(b *testing.B) {
	message := made(b, []byte("hi"))
	for i := 0; i < b.N; i++ {
		if _, err := cose.Verify(jefe, message, nil); err != nil {
			b.Fatal(err)
		}
	}
}

func BenchmarkTable44(b *testing.B) {
	message := made(b, []byte("hi"))
	table, err := cose.NewKeyTable(jefe)
	if err != nil {
		b.Fatal(err)
	}
	for i := 0; i < b.N; i++ {
		if _, err := table.Verify(message, nil); err != nil {
			b.Fatal(err)
		}
	}
}

func BenchmarkToken(b *testing.B) {
	token := made(b, []byte("\xa3\x02\x65erikw\x03\x78\x18coap://light.example.com\x04\x1a\x56\x12\xae\xb0"))
	audience := "coap://light.example.com"
	policy := &cose.Policy{CurrentTime: time.Unix(1444064943, 0), Audience: &audience}
	for i := 0; i < b.N; i++ {
		if _, err := cose.VerifyCWT(jefe, token, policy, nil); err != nil {
			b.Fatal(err)
		}
	}
}

// BenchmarkReader has a payload of 1 MiB from a reader.
func BenchmarkReader(b *testing.B) {
	message := made(b, make([]byte, 1<<20))
	v, err := cose.NewVerifier(jefe, nil)
	if err != nil {
		b.Fatal(err)
	}
	b.SetBytes(int64(len(message)))
	for i := 0; i < b.N; i++ {
		if _, err := v.VerifyFrom(bytes.NewReader(message), io.Discard); err != nil {
			b.Fatal(err)
		}
	}
}
