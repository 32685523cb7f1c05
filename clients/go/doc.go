// Package nazhuvem puts the schedules of an object API server into a test's hands.
//
// A Hub is a server of which the test chooses what happens next: it is an
// http.RoundTripper, so the Transport of client-go's rest.Config, and its watches write
// lines, its clock moves and its connections are cut when the test says so. Explore plays
// a scenario again and again, each time with one disturbance at one place among the
// events of the controller, as a subtest each.
//
//	hub := nazhuvem.Start(t, "config/crd/bases")
//	client, err := dynamic.NewForConfig(&rest.Config{Host: "http://hub", Transport: hub})
package nazhuvem
