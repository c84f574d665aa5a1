package coshalit_test

import (
	"fmt"
	"log"

	"coshalit.example/coshalit"
)

// Two programs put out one byte, 2a and 2b. The match is about the first.
func Example() {
	program := `{"format":"flat","image":"1305%s029308100073000000130500009308d00573000000","input":"","bound":8,"patience":0,"provers":[{}]}`
	provers := []coshalit.Prover{}
	for _, immediate := range []string{"a0", "b0"} {
		provers = append(provers, coshalit.NewProver([]byte(fmt.Sprintf(program, immediate))))
	}
	start, err := provers[0].StartRoot()
	if err != nil {
		log.Fatal(err)
	}
	match, err := coshalit.NewMatch(coshalit.Numbers{Version: 1, Provers: 2, Fan: 2, Bound: 8, Start: start})
	if err != nil {
		log.Fatal(err)
	}
	for len(match.Questions()) > 0 {
		asked := match.Questions()[0]
		answer, err := provers[asked.Prover-1].Answer(asked)
		if err != nil {
			log.Fatal(err)
		}
		if _, err := match.Post(asked.Prover, asked.Dispute, asked.Round, answer); err != nil {
			log.Fatal(err)
		}
	}
	text, err := match.Text()
	if err != nil {
		log.Fatal(err)
	}
	said, err := coshalit.Audit(text)
	if err != nil {
		log.Fatal(err)
	}
	fmt.Print(said)
	// Output: confirmed accept exited 0 output 2a
}
