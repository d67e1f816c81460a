// The door: it is opened only for an answer 200, and shut once the use is over. Words: OBJECT SECONDS
package main

import (
	"bytes"
	"crypto/rand"
	"encoding/json"
	"fmt"
	"net/http"
	"os"
	"strconv"
	"time"
)

type Answer struct {
	Session             int
	Accessing           bool
	State, Label, Error string
}

// A status and an answer. A reply that is lost is asked for again under the same key, so nothing is done twice.
func ask(path string, body map[string]any) (int, Answer) {
	client, key, answer := http.Client{Timeout: 15 * time.Second}, make([]byte, 16), Answer{}
	rand.Read(key)
	for n := 0; n < 5; n++ {
		time.Sleep(time.Duration(n) * time.Second / 2)
		raw, method := []byte(nil), "GET"
		if body != nil {
			raw, _ = json.Marshal(body)
			method = "POST"
		}
		request, _ := http.NewRequest(method, os.Getenv("UCON_URL")+path, bytes.NewReader(raw))
		request.Header.Set("Authorization", "Bearer "+os.Getenv("UCON_TOKEN"))
		request.Header.Set("Content-Type", "application/json")
		request.Header.Set("Idempotency-Key", fmt.Sprintf("%x", key))
		response, err := client.Do(request)
		if err != nil {
			continue
		}
		err = json.NewDecoder(response.Body).Decode(&answer)
		response.Body.Close()
		if s := response.StatusCode; err == nil && s != 429 && s != 503 && s != 504 {
			return s, answer
		}
	}
	panic("no answer")
}

func main() {
	seconds, _ := strconv.Atoi(os.Args[2])
	status, said := ask("/try", map[string]any{"right": "enter", "object": os.Args[1]})
	if status != 200 {
		fmt.Println("shut:", said.Label+said.Error)
		os.Exit(1)
	}
	fmt.Println("open")
	for n := 0; n < seconds; n++ {
		time.Sleep(time.Second)
		if _, now := ask(fmt.Sprint("/sessions/", said.Session), nil); !now.Accessing {
			fmt.Println("shut:", now.State)
			os.Exit(1)
		}
	}
	ask("/end", map[string]any{"session": said.Session})
	fmt.Println("shut: left")
}
