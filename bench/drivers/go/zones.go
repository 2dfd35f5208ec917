package main

import (
	"strings"
	"time"
)

func offsetOf(at time.Time) int64 {
	_, offset := at.Zone()
	return int64(offset)
}

// The Unix time, and 0 if there is no such time.
func secondOf(at time.Time) int64 {
	if at.IsZero() {
		return 0
	}
	return at.Unix()
}

func timeLookups(inputs, outputs, name, years string, zone *time.Location) {
	asked := seconds(inputs, "at", years)
	instants := make([]time.Time, len(asked))
	for i, second := range asked {
		instants[i] = time.Unix(second, 0)
	}
	answers := make([]int32, checked)
	for i := range answers {
		answers[i] = int32(offsetOf(instants[i].In(zone)))
	}
	writeAnswers(outputs+"/"+peer+"."+name+".at."+years, answers)
	each, used := leastTime(len(instants), func(from, end int) (sum int64) {
		for _, at := range instants[from:end] {
			sum += offsetOf(at.In(zone))
		}
		return
	})
	figure(name, "at", years, each, used)

	asked = seconds(inputs, "wall", years)
	locals := make([]fields, len(asked))
	for i, second := range asked {
		locals[i] = fieldsOf(second)
	}
	each, used = leastTime(len(locals), func(from, end int) (sum int64) {
		for i := range locals[from:end] {
			sum += locals[from+i].in(zone).Unix()
		}
		return
	})
	figure(name, "wall", years, each, used)
}

func timeSpans(inputs, outputs, name string, zone *time.Location) {
	asked := seconds(inputs, "at", "near")
	instants := make([]time.Time, len(asked))
	for i, second := range asked {
		instants[i] = time.Unix(second, 0).In(zone)
	}
	answers := make([]int32, 0, 2*checked)
	for _, at := range instants[:checked] {
		start, end := at.ZoneBounds()
		answers = append(answers, int32(secondOf(start)), int32(secondOf(end)))
	}
	writeAnswers(outputs+"/"+peer+"."+name+".span.near", answers)
	each, used := leastTime(len(instants), func(from, end int) (sum int64) {
		for _, at := range instants[from:end] {
			start, until := at.ZoneBounds()
			sum += secondOf(start) + secondOf(until)
		}
		return
	})
	figure(name, "span", "near", each, used)
	if name == "Text" || strings.HasPrefix(name, "New_York") {
		timeNext(inputs, outputs, name, instants)
	}
}

// The clock change after an instant is the end of its span.
func timeNext(inputs, outputs, name string, instants []time.Time) {
	answers := make([]int32, checked)
	for i := range answers {
		_, end := instants[i].ZoneBounds()
		answers[i] = int32(secondOf(end))
	}
	writeAnswers(outputs+"/"+peer+"."+name+".next.near", answers)
	each, used := leastTime(len(instants), func(from, end int) (sum int64) {
		for _, at := range instants[from:end] {
			_, until := at.ZoneBounds()
			sum += secondOf(until)
		}
		return
	})
	figure(name, "next", "near", each, used)
}

func timeZones(inputs, outputs string) {
	for _, name := range words(inputs + "/names") {
		file := read(inputs + "/zones/" + name)
		zone, err := time.LoadLocationFromTZData(name, file)
		if err != nil {
			figure(name, "read", "-", -1, 0)
			continue
		}
		each, used := leastTime(100_000, func(from, end int) (sum int64) {
			for i := from; i < end; i++ {
				read, _ := time.LoadLocationFromTZData(name, file)
				sum += int64(len(read.String()))
			}
			return
		})
		figure(name, "read", "-", each, used)
		for _, years := range words(inputs + "/years") {
			timeLookups(inputs, outputs, name, years, zone)
		}
		if name[0] < '0' || name[0] > '9' {
			timeSpans(inputs, outputs, name, zone)
		}
	}
}
