package main

import (
	"bufio"
	"fmt"
	"math"
	"os"
	"sort"
	"time"
)

const (
	workSlice  = 1000
	workPasses = 10
	sorts      = 5
	days       = 28
)

// The first instant that shows the local time, and in a gap that by the offset before it: time.Date takes either one there.
func resolved(local fields, zone *time.Location) int64 {
	at := local.in(zone)
	if hour, minute, _ := at.Clock(); hour == local.hour && minute == local.minute {
		return at.Unix()
	}
	shown := local.in(time.UTC).Unix()
	before := offsetOf(at)
	if at.Unix()+before > shown {
		start, _ := at.ZoneBounds()
		before = offsetOf(start.Add(-time.Second))
	}
	return shown - before
}

func digits(at time.Time) int64 {
	year, month, day := at.Date()
	hour, minute, second := at.Clock()
	return ((((int64(year)*100+int64(month))*100+int64(day))*100+int64(hour))*100+int64(minute))*100 + int64(second)
}

func shown(at time.Time) fields {
	year, month, day := at.Date()
	hour, minute, second := at.Clock()
	return fields{year, month, day, hour, minute, second}
}

// The day of the next month, or its last day.
func monthLater(local fields) fields {
	local.month++
	if local.day > 28 {
		last := time.Date(local.year, local.month+1, 0, 0, 0, 0, 0, time.UTC).Day()
		if local.day > last {
			local.day = last
		}
	}
	return local
}

type work struct {
	answers *bufio.Writer
}

// Asks it in slices, and writes its answers.
func (w work) question(name string, call ask) {
	figure("New_York", name, "near", leastOfSlices(checked, workSlice, workPasses, call)/checked, checked)
	for i := 0; i < checked; i++ {
		fmt.Fprintf(w.answers, "%s\t%d\n", name, call(i, i+1))
	}
}

func (w work) sort(instants []time.Time) {
	least := math.Inf(1)
	copied := make([]time.Time, len(instants))
	for pass := 0; pass < sorts; pass++ {
		copy(copied, instants)
		start := now()
		sort.Slice(copied, func(i, j int) bool { return copied[i].Before(copied[j]) })
		least = math.Min(least, now()-start-cost)
		sink += copied[0].Unix()
	}
	figure("New_York", "sort", "near", least/float64(len(instants)), len(instants))
	few := append([]time.Time{}, instants[:checked]...)
	sort.Slice(few, func(i, j int) bool { return few[i].Before(few[j]) })
	for _, each := range few {
		fmt.Fprintf(w.answers, "sort\t%d\n", each.Unix())
	}
}

func timeWork(inputs, outputs string) {
	zone, err := time.LoadLocationFromTZData("New_York", read(inputs+"/zones/New_York"))
	check(err)
	other, err := time.LoadLocationFromTZData("London", read(inputs+"/zones/London"))
	check(err)
	file, err := os.Create(outputs + "/" + peer + ".answers")
	check(err)
	w := work{bufio.NewWriter(file)}
	at, wall, gap := seconds(inputs, "at", "near"), seconds(inputs, "wall", "near"), seconds(inputs, "gap", "near")
	instants, others := make([]time.Time, len(at)), make([]time.Time, checked)
	readings, skipped := make([]fields, checked), make([]fields, checked)
	for i := range instants {
		instants[i] = time.Unix(at[i], 0).In(zone)
	}
	for i := range readings {
		others[i] = time.Unix(wall[i], 0).In(zone)
		readings[i], skipped[i] = fieldsOf(wall[i]), fieldsOf(gap[i])
	}
	resolveAll := func(locals []fields) ask {
		return func(from, end int) (sum int64) {
			for i := from; i < end; i++ {
				sum += resolved(locals[i], zone)
			}
			return
		}
	}
	// A question about each instant.
	of := func(call func(at time.Time) int64) ask {
		return func(from, end int) (sum int64) {
			for _, each := range instants[from:end] {
				sum += call(each)
			}
			return
		}
	}
	const form = "2006-01-02 15:04:05 -07:00"

	w.question("fields_at", func(from, end int) (sum int64) {
		for _, second := range at[from:end] {
			sum += digits(time.Unix(second, 0).In(zone))
		}
		return
	})
	w.question("fields", func(from, end int) (sum int64) {
		for _, each := range instants[from:end] {
			sum += digits(each)
		}
		return
	})
	w.question("from_fields", resolveAll(readings))
	w.question("month_later", of(func(at time.Time) int64 { return resolved(monthLater(shown(at)), zone) }))
	w.question("day_later", of(func(at time.Time) int64 {
		local := shown(at)
		local.day++
		return resolved(local, zone)
	}))
	w.question("at_nine", of(func(at time.Time) int64 {
		local := shown(at)
		local.hour = 9
		return resolved(local, zone)
	}))
	w.question("five_minutes", of(func(at time.Time) int64 {
		_, minute, second := at.Clock()
		return at.Add(-time.Duration(minute%5*60+second) * time.Second).Unix()
	}))
	w.question("whole_day", of(func(at time.Time) int64 {
		hour, minute, second := at.Clock()
		return at.Add(-time.Duration(hour*3600+minute*60+second) * time.Second).Unix()
	}))
	w.question("difference", func(from, end int) (sum int64) {
		for i := from; i < end; i++ {
			sum += int64(instants[i].Sub(others[i]) / time.Second)
		}
		return
	})
	w.question("order", func(from, end int) (sum int64) {
		for i := from; i < end; i++ {
			if instants[i].Before(others[i]) {
				sum++
			}
		}
		return
	})
	w.question("print", of(func(at time.Time) int64 { return int64(len(at.Format(form))) }))
	for _, each := range instants[:checked] {
		fmt.Fprintf(w.answers, "text\t%s\n", each.Format(form))
	}
	w.question("elsewhere", of(func(at time.Time) int64 { return at.Unix() + offsetOf(at.In(other)) }))
	w.question("resolve", resolveAll(readings))
	w.question("in_gap", resolveAll(skipped))
	w.question("daily", func(from, end int) (sum int64) {
		for _, reading := range readings[from:end] {
			for day := 0; day < days; day++ {
				local := fields{reading.year, reading.month, reading.day + day, 2, 30, 0}
				sum += resolved(local, zone)
			}
		}
		return
	})
	w.sort(instants)
	check(w.answers.Flush())
	check(file.Close())
}
