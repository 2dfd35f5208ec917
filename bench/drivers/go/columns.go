package main

import (
	"fmt"
	"math"
	"os"
	"sort"
	"strings"
	"time"
)

const second = int64(time.Second)

func secondsOf(instant int64) int64 {
	if instant%second < 0 {
		return instant/second - 1
	}
	return instant / second
}

// Asks for each row.
func eachRow(zone *time.Location, instants, locals []int64) {
	for i, instant := range instants {
		locals[i] = instant + offsetOf(time.Unix(secondsOf(instant), 0).In(zone))*second
	}
}

// A time in nanoseconds, or the other number if there is no such time, or it has too many.
func nanosecondsOr(at time.Time, other int64) int64 {
	if seconds := at.Unix(); !at.IsZero() && seconds < math.MaxInt64/second && seconds > math.MinInt64/second {
		return seconds * second
	}
	return other
}

// Asks for the span of a row, and keeps it for the rows after it; a span without an end is everlasting.
func keptSpan(zone *time.Location, instants, locals []int64) {
	begin, end, offset := int64(math.MaxInt64), int64(math.MinInt64), int64(0)
	for i, instant := range instants {
		if instant < begin || instant >= end {
			asked := time.Unix(secondsOf(instant), 0).In(zone)
			start, until := asked.ZoneBounds()
			begin, end = nanosecondsOr(start, math.MinInt64), nanosecondsOr(until, math.MaxInt64)
			offset = offsetOf(asked) * second
		}
		locals[i] = instant + offset
	}
}

// The columns are those that columns.cc wrote, and the answers are compared with this library's, which are there too.
func timeColumns(folder string) {
	ways := map[string]func(zone *time.Location, instants, locals []int64){peer: eachRow, peer + "+kept": keptSpan}
	for _, name := range words(folder + "/zones") {
		short := name[strings.LastIndex(name, "/")+1:]
		zone, err := time.LoadLocationFromTZData(name, read("/usr/share/zoneinfo/"+name))
		check(err)
		for _, rows := range strings.Split(strings.TrimSpace(string(read(folder+"/rows"))), "\n") {
			instants, due := numbers(folder+"/"+rows+".i64"), numbers(folder+"/"+short+"."+rows+".i64")
			locals := make([]int64, len(instants))
			for way, answer := range ways {
				times := []float64{}
				for spent := 0.0; spent < passNanoseconds; spent += times[len(times)-1] {
					start := now()
					answer(zone, instants, locals)
					times = append(times, math.Max(0, now()-start-cost))
				}
				sort.Float64s(times)
				each := times[len(times)/20] / float64(len(instants))
				differ := 0
				for i := range due {
					if locals[i] != due[i] {
						differ++
					}
				}
				fmt.Fprintf(os.Stdout, "%s\t%s\t%s\t%.2f\t%d\t%d\n", way, short, rows, each, len(instants), differ)
			}
		}
	}
}
