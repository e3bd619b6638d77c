// Gives each vector to `receive` and tells each that is answered otherwise: go run vectors.go FOLDER; status 1 where one is.
package main

import (
	"bytes"
	"encoding/binary"
	"encoding/hex"
	"encoding/json"
	"fmt"
	"os"
)

type vector struct {
	Name, Protocol, Hex string
	Accept              bool
	Status              struct{ Code string }
	Steps               []vector
}

// Your reader stands here: "taken", "refused", or the code of the status with which it refuses; "" is no answer.
func receive(protocol string, data []byte) string {
	least := map[string]int{"ldp": 10, "bgp": 19}[protocol]
	switch number := binary.BigEndian.Uint16; {
	case len(data) < least:
		return "refused"
	case protocol == "ldp" && number(data) != 1:
		return "00000002"
	case protocol == "ldp" && (len(data) < 18 || int(number(data[2:])) != len(data)-4):
		return "00000003"
	case protocol == "bgp" && !bytes.Equal(data[:16], bytes.Repeat([]byte{0xFF}, 16)):
		return "1/1"
	}
	return ""
}

func main() {
	status := 0
	for _, name := range []string{"ldp", "bgp", "bulk", "sessions"} {
		text, fault := os.ReadFile(os.Args[1] + "/" + name + ".json")
		var entries, vectors []vector
		if fault != nil || json.Unmarshal(text, &entries) != nil {
			panic(name)
		}
		for _, entry := range entries {
			vectors = append(vectors, append(entry.Steps, map[bool][]vector{true: {entry}}[entry.Steps == nil]...)...)
		}
		for _, one := range vectors {
			data, fault := hex.DecodeString(one.Hex)
			wanted := map[bool]string{true: "taken", false: one.Status.Code}[one.Accept]
			if told := receive(one.Protocol, data); fault != nil || told != "" && told != wanted && (told != "refused" || wanted != "") {
				fmt.Println(name, one.Name, one.Hex, told, "and not", wanted)
				status = 1
			}
		}
		fmt.Printf("%s: %d vectors\n", name, len(vectors))
	}
	os.Exit(status)
}
