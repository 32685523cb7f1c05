package nazhuvem

import (
	"errors"
	"fmt"
	"hash/fnv"
	"math/rand"
	"time"
)

// What is played for a budget: other schedules and pairs, in an order by a seed. The choice of
// each number is its own, so that the parts of a shard make the whole.

// After so many choices that were played already nothing new is looked for.
const mostMisses = 1000

// errNoPair is why a number has no pair.
var errNoPair = errors.New("no second disturbance")

// chance is what is drawn for a number.
func (e *exploration) chance(number int) *rand.Rand {
	sum := fnv.New64a()
	fmt.Fprintf(sum, "%d/%d", e.seed, number)
	return rand.New(rand.NewSource(int64(sum.Sum64())))
}

// draw is what is chosen by the seed, until the end. Its numbers are guarded by the lock of
// the exploration.
type draw struct {
	*exploration
	others []Schedule
	end    time.Time
	number int
	// misses is how many choices after one another were played already.
	misses int
}

// bySeed chooses other schedules and pairs by the seed, until the end.
func (e *exploration) bySeed(others []Schedule, end time.Time) *draw {
	others = append([]Schedule(nil), others...)
	rand.New(rand.NewSource(e.seed)).Shuffle(len(others), func(one, other int) {
		others[one], others[other] = others[other], others[one]
	})
	return &draw{exploration: e, others: others, end: end}
}

// next is what is played next.
func (d *draw) next(spare *spare) (chosen, bool) {
	for {
		number, isLeft := d.nextNumber()
		if !isLeft {
			return chosen{}, false
		}
		it, err := d.choice(number, d.others, spare)
		if err != nil && !errors.Is(err, errNoPair) {
			d.fail(err)
			return chosen{}, false
		}
		isNew := err == nil && (it.failure != nil || d.isNew(it.schedule.Word()))
		d.count(isNew)
		if isNew {
			return it, true
		}
	}
}

// nextNumber is the next one of this part of all, and whether something is chosen for it.
func (d *draw) nextNumber() (int, bool) {
	d.lock.Lock()
	defer d.lock.Unlock()
	for d.number%d.shards != d.shard {
		d.number++
	}
	d.number++
	return d.number - 1, d.misses < mostMisses && time.Now().Before(d.end) && !d.hasFailed
}

func (d *draw) count(isNew bool) {
	d.lock.Lock()
	defer d.lock.Unlock()
	d.misses++
	if isNew {
		d.misses = 0
	}
}

// isNew notes a word, and tells whether it is one that wasn't chosen before.
func (e *exploration) isNew(word string) bool {
	e.lock.Lock()
	defer e.lock.Unlock()
	isKnown := e.words[word]
	e.words[word] = true
	return !isKnown
}

func (e *exploration) fail(err error) {
	e.lock.Lock()
	defer e.lock.Unlock()
	if e.err == nil {
		e.err = err
	}
	e.hasFailed = true
}

// choice is what is played for a number: another schedule, or a pair.
func (e *exploration) choice(number int, others []Schedule, spare *spare) (chosen, error) {
	it := chosen{number: len(e.schedules) + number, isBySeed: true}
	if number%2 == 0 && number/2 < len(others) {
		it.schedule = others[number/2]
		return it, nil
	}
	chance := e.chance(number)
	if len(e.schedules) < 2 {
		return it, errNoPair
	}
	it.schedule = e.schedules[1+chance.Intn(len(e.schedules)-1)]
	places, failure, err := e.placesOf(it.schedule, spare)
	if failure != nil || err != nil {
		it.failure = failure
		return it, err
	}
	seconds := e.secondOf(it.schedule, places)
	if len(seconds) == 0 {
		return it, errNoPair
	}
	it.schedule.Then = &seconds[chance.Intn(len(seconds))]
	return it, nil
}

// placesOf are the places of a schedule of one disturbance, which is played where it wasn't
// yet.
func (e *exploration) placesOf(schedule Schedule, spare *spare) ([]Place, *Failure, error) {
	word := schedule.Word()
	e.lock.Lock()
	places, isKnown := e.places[word]
	e.lock.Unlock()
	if isKnown {
		return places, nil, nil
	}
	places, failure, err := e.playNext(schedule, spare, true)
	e.lock.Lock()
	defer e.lock.Unlock()
	e.places[word] = places
	e.words[word] = true
	return places, failure, err
}
