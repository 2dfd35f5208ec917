// Go's time, of its standard library. A Time has its instant and its Location, so each question about its clock asks the Location;
// time.Date returns one instant, and doesn't say how many there are.
//
// usage: go_times zones INPUTS OUTPUTS; go_times work INPUTS OUTPUTS; go_times columns FOLDER. bench/run.sh builds it of this folder.
//
// common.h, work.h and columns.cc say what a driver prints and writes. A question is asked by a function that loops over a part of its
// values, since Go's compiler doesn't inline a function that is passed.
package main

import (
	"bufio"
	"encoding/binary"
	"fmt"
	"math"
	"os"
	"runtime"
	"strings"
	"syscall"
	"time"
	"unsafe"
)

const (
	peer            = "go"
	checked         = 100_000
	passes          = 5
	passNanoseconds = 0.3e9
	sliceNanos      = 1e6
	threadCPUTime   = 3
)

// What is computed and not used otherwise, so that no compiler leaves it out.
var sink int64

// The sum of the answers about the values from one place to before another.
type ask func(from, end int) int64

// A date and a time of day.
type fields struct {
	year                      int
	month                     time.Month
	day, hour, minute, second int
}

func (f fields) in(location *time.Location) time.Time {
	return time.Date(f.year, f.month, f.day, f.hour, f.minute, f.second, 0, location)
}

func fieldsOf(second int64) fields {
	at := time.Unix(second, 0).UTC()
	return fields{at.Year(), at.Month(), at.Day(), at.Hour(), at.Minute(), at.Second()}
}

// The processor's time of this thread, in nanoseconds: not that of the collector of garbage, which has threads of its own.
func now() float64 {
	var at syscall.Timespec
	syscall.RawSyscall(syscall.SYS_CLOCK_GETTIME, threadCPUTime, uintptr(unsafe.Pointer(&at)), 0)
	return float64(at.Nano())
}

// What reading the clock itself takes.
func clockCost() float64 {
	least := math.Inf(1)
	for i := 0; i < 1000; i++ {
		start := now()
		least = math.Min(least, now()-start)
	}
	return least
}

var cost = clockCost()

func took(call ask, from, end int) float64 {
	start := now()
	sink += call(from, end)
	return math.Max(0, now()-start-cost)
}

// As least_time of common.h.
func leastTime(count int, call ask) (float64, int) {
	probe, each := count, math.Inf(1)
	if probe > 64 {
		probe = 64
	}
	for pass := 0; pass < passes; pass++ {
		each = math.Min(each, took(call, 0, probe)/float64(probe))
	}
	each = math.Max(each, 0.1)
	used := int(passNanoseconds / each)
	if used < probe {
		used = probe
	}
	if used > count {
		used = count
	}
	return leastOfSlices(used, int(sliceNanos/each)+1, passes, call) / float64(used), used
}

// The sum of the least times of slices, each asked so many times.
func leastOfSlices(count, slice, passes int, call ask) float64 {
	least := make([]float64, (count+slice-1)/slice)
	for pass := 0; pass < passes; pass++ {
		for k := range least {
			end := (k + 1) * slice
			if end > count {
				end = count
			}
			if time := took(call, k*slice, end); pass == 0 || time < least[k] {
				least[k] = time
			}
		}
	}
	sum := 0.0
	for _, time := range least {
		sum += time
	}
	return sum
}

func check(err error) {
	if err != nil {
		fmt.Fprintln(os.Stderr, err)
		os.Exit(2)
	}
}

func read(path string) []byte {
	bytes, err := os.ReadFile(path)
	check(err)
	return bytes
}

func words(path string) []string { return strings.Fields(string(read(path))) }

func numbers(path string) []int64 {
	bytes := read(path)
	found := make([]int64, len(bytes)/8)
	for i := range found {
		found[i] = int64(binary.LittleEndian.Uint64(bytes[8*i:]))
	}
	return found
}

func seconds(inputs, question, years string) []int64 {
	return numbers(inputs + "/" + question + "_" + years + ".i64")
}

func figure(zone, question, years string, nanoseconds float64, count int) {
	fmt.Printf("%s\t%s\t%s\t%s\t%.2f\t%d\n", peer, zone, question, years, nanoseconds, count)
}

func writeAnswers(path string, answers []int32) {
	file, err := os.Create(path)
	check(err)
	out := bufio.NewWriter(file)
	check(binary.Write(out, binary.LittleEndian, answers))
	check(out.Flush())
	check(file.Close())
}

func main() {
	runtime.LockOSThread()
	switch {
	case len(os.Args) == 4 && os.Args[1] == "zones":
		timeZones(os.Args[2], os.Args[3])
	case len(os.Args) == 4 && os.Args[1] == "work":
		timeWork(os.Args[2], os.Args[3])
	case len(os.Args) == 3 && os.Args[1] == "columns":
		timeColumns(os.Args[2])
	default:
		check(fmt.Errorf("usage: go_times zones INPUTS OUTPUTS; work INPUTS OUTPUTS; columns FOLDER"))
	}
	fmt.Fprintln(os.Stderr, "sum of what was answered:", sink)
}
