// vectors checks each line of a file of vectors by the package mstverifier, or times it.
//
//	go run ./cmd/vectors [--sharded] [--time] FILE
//
// A line has a format, a root digest, a key, a proof and the answer, separated by tabs. With
// --sharded the proofs are those of sharded maps. With --time it prints the processor time of a
// call, the mean over the lines.
package main

import (
	"bufio"
	"encoding/hex"
	"errors"
	"flag"
	"fmt"
	"log"
	"os"
	"strconv"
	"strings"
	"syscall"
	"time"

	"mstverifier"
)

const (
	longestLine = 1 << 22
	calls       = 100
	leastTime   = 20 * time.Millisecond
)

type verifier func(
	format mstverifier.Format, root [32]byte, key, proof []byte,
) (value []byte, present bool, err error)

type vector struct {
	format     mstverifier.Format
	root       [32]byte
	key, proof []byte
	wanted     string
}

// bytesOf reads hexadecimal digits, `-` for no bytes.
func bytesOf(word string) ([]byte, error) {
	if word == "-" {
		return nil, nil
	}
	return hex.DecodeString(word)
}

func wordOf(bytes []byte) string {
	if len(bytes) == 0 {
		return "-"
	}
	return hex.EncodeToString(bytes)
}

func vectorOf(line string) (it vector, err error) {
	fields := strings.Split(line, "\t")
	if len(fields) < 5 {
		return it, errors.New("a line has five fields or more")
	}
	format, err := strconv.ParseUint(fields[0], 10, 8)
	if err != nil {
		return it, err
	}
	var words [3][]byte
	for place := range words {
		if words[place], err = bytesOf(fields[1+place]); err != nil {
			return it, err
		}
	}
	if len(words[0]) != len(it.root) {
		return it, errors.New("a root digest has 32 bytes")
	}
	it = vector{mstverifier.Format(format), it.root, words[1], words[2], fields[4]}
	copy(it.root[:], words[0])
	return it, nil
}

func read(name string) (all []vector, err error) {
	file, err := os.Open(name)
	if err != nil {
		return nil, err
	}
	defer file.Close()
	lines := bufio.NewScanner(file)
	lines.Buffer(nil, longestLine)
	for lines.Scan() {
		it, err := vectorOf(lines.Text())
		if err != nil {
			return nil, fmt.Errorf("line %d: %w", len(all)+1, err)
		}
		all = append(all, it)
	}
	return all, lines.Err()
}

// told is the answer as a line has it.
func told(by verifier, it vector) string {
	value, present, err := by(it.format, it.root, it.key, it.proof)
	var refused mstverifier.Refused
	switch {
	case errors.As(err, &refused):
		return string(refused)
	case err != nil:
		return err.Error()
	case present:
		return "present " + wordOf(value)
	}
	return "absent"
}

// now is the processor time that this process has taken.
func now() time.Duration {
	var used syscall.Rusage
	if err := syscall.Getrusage(syscall.RUSAGE_SELF, &used); err != nil {
		log.Fatal(err)
	}
	return time.Duration(used.Utime.Nano() + used.Stime.Nano())
}

// timed is the mean time of a call.
func timed(by verifier, it vector) time.Duration {
	start := now()
	for made := 1; ; made++ {
		for left := calls; left > 0; left-- {
			_, _, _ = by(it.format, it.root, it.key, it.proof)
		}
		if took := now() - start; took >= leastTime {
			return took / time.Duration(made*calls)
		}
	}
}

func printTimes(by verifier, all []vector) {
	var sum time.Duration
	bytes := 0
	for _, it := range all {
		sum += timed(by, it)
		bytes += len(it.proof)
	}
	micros := float64(sum.Nanoseconds()) / 1000 / float64(len(all))
	fmt.Printf("%d proofs of %d bytes: ", len(all), bytes/len(all))
	fmt.Printf("%.1f microseconds of processor time a call\n", micros)
}

func main() {
	log.SetFlags(0)
	isSharded := flag.Bool("sharded", false, "the proofs are those of sharded maps")
	isTimed := flag.Bool("time", false, "print the time of a call")
	flag.Parse()
	if flag.NArg() != 1 {
		log.Fatal("vectors [--sharded] [--time] FILE")
	}
	all, err := read(flag.Arg(0))
	if err != nil {
		log.Fatal(err)
	}
	by := verifier(mstverifier.Verify)
	if *isSharded {
		by = mstverifier.VerifySharded
	}
	failed := 0
	for place, it := range all {
		if answer := told(by, it); answer != it.wanted {
			failed++
			fmt.Printf("line %d: %s, and not %s\n", place+1, answer, it.wanted)
		}
	}
	fmt.Printf("%d vectors as wanted, %d not\n", len(all)-failed, failed)
	if failed > 0 || len(all) == 0 {
		os.Exit(1)
	}
	if *isTimed {
		printTimes(by, all)
	}
}
