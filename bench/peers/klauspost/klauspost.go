// Encode and repair by klauspost/reedsolomon for C, over packets that C owns.
package main

// #include <stdint.h>
import "C"

import (
	"unsafe"

	"github.com/klauspost/reedsolomon"
)

type state struct {
	code    reedsolomon.Encoder
	packets [][]byte
	given   [][]byte
	lost    []int32
}

var states []*state

// klauspost_new answers a number for the k source packets and r parity packets of a run, or -1.
//
//export klauspost_new
func klauspost_new(k, r, bytes C.int, run *C.uint8_t, lostCount C.int, lost *C.int) C.int {
	code, err := reedsolomon.New(int(k), int(r), reedsolomon.WithMaxGoroutines(1), reedsolomon.WithInversionCache(false))
	if err != nil {
		return -1
	}
	s := &state{code: code, given: make([][]byte, int(k+r))}
	size := int(bytes)
	all := unsafe.Slice((*byte)(unsafe.Pointer(run)), int(k+r)*size)
	for i := 0; i < int(k+r); i++ {
		s.packets = append(s.packets, all[i*size:(i+1)*size:(i+1)*size])
	}
	s.lost = append(s.lost, unsafe.Slice((*int32)(unsafe.Pointer(lost)), int(lostCount))...)
	states = append(states, s)
	return C.int(len(states) - 1)
}

//export klauspost_encode
func klauspost_encode(number C.int) C.int {
	s := states[number]
	return answer(s.code.Encode(s.packets))
}

// klauspost_repair gives all parity, and the lost packets as slices of length 0 that have room.
//
//export klauspost_repair
func klauspost_repair(number C.int) C.int {
	s := states[number]
	copy(s.given, s.packets)
	for _, i := range s.lost {
		s.given[i] = s.given[i][:0]
	}
	return answer(s.code.ReconstructData(s.given))
}

func answer(err error) C.int {
	if err != nil {
		return 1
	}
	return 0
}

func main() {}
