package nazhuvem

import (
	"strconv"
	"time"
)

// Option is how a scenario is explored: a Kind, or what one of the functions With.. returns.
type Option interface {
	explore(*exploration)
}

// HubOption is how a hub is started, by itself or by Explore.
type HubOption interface {
	Option
	start(*settings)
}

// settings are what a hub is started with.
type settings struct {
	paths []string
	// words are those of the program's command line, but for the types.
	words []string
	// isPlain tells that clients can't discover the types.
	isPlain bool
	// hasType tells that the program's own client was told which type it follows.
	hasType bool
}

// hubOption sets something of a hub.
type hubOption func(*settings)

func (o hubOption) start(s *settings)      { o(s) }
func (o hubOption) explore(e *exploration) { o(&e.settings) }

// exploreOption sets something of an exploration.
type exploreOption func(*exploration)

func (o exploreOption) explore(e *exploration) { o(e) }

// worded is an option of the program's command line.
func worded(name, value string) HubOption {
	return hubOption(func(s *settings) { s.words = append(s.words, name, value) })
}

// WithTypes adds types: other types files, or CustomResourceDefinitions.
func WithTypes(paths ...string) HubOption {
	return hubOption(func(s *settings) { s.paths = append(s.paths, paths...) })
}

// WithoutDiscovery leaves out the documents by which clients find the types.
func WithoutDiscovery() HubOption {
	return hubOption(func(s *settings) { s.isPlain = true })
}

// WithPage says how many objects a page of the program's own client has.
func WithPage(objects int) HubOption { return worded("--page", strconv.Itoa(objects)) }

// WithSelector says which labels the objects of the program's own client have.
func WithSelector(selector string) HubOption { return worded("--selector", selector) }

// WithNamespace says which namespace the program's own client follows.
func WithNamespace(namespace string) HubOption { return worded("--namespace", namespace) }

// WithLabel says by which label the program's own client counts.
func WithLabel(label string) HubOption { return worded("--label", label) }

// WithType says which type the program's own client follows, "demo.example/v1/widgets" say:
// the first one without it.
func WithType(path string) HubOption {
	return hubOption(func(s *settings) {
		s.hasType = true
		s.words = append(s.words, "--type", path)
	})
}

// WithKinds says which kinds of disturbances happen, in place of Every.
func WithKinds(kinds ...Kind) Option {
	return exploreOption(func(e *exploration) { e.kinds = append(e.kinds, kinds...) })
}

// WithBudget lets Explore go on for so long, and end after it: once the first two hundred
// schedules of one disturbance have passed, the others come in an order by a seed, among
// them schedules of two disturbances.
func WithBudget(budget time.Duration) Option {
	return exploreOption(func(e *exploration) { e.budget = budget })
}

// WithSeed says by which seed schedules are chosen for a budget: by that of the variable
// NAZHUVEM_SEED without it, else by 1.
func WithSeed(seed int64) Option {
	return exploreOption(func(e *exploration) { e.seed, e.hasSeed = seed, true })
}

// WithAnyOrder says that the controller's goroutines send their requests in any order, or that
// the clock decides when, as client-go's informers do: the events before a place needn't be
// those of the play without a disturbance.
func WithAnyOrder() Option {
	return exploreOption(func(e *exploration) { e.isAnyOrder = true })
}
