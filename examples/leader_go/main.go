// Elects a leader by client-go's LeaseLock: a leads until it ends, b takes over when a's lease is over.
//
//	leader_go http://127.0.0.1:PORT
//
// The server has the types of examples/types/leases.json, and no lease at first.
package main

import (
	"context"
	"fmt"
	"os"
	"time"

	metav1 "k8s.io/apimachinery/pkg/apis/meta/v1"
	"k8s.io/client-go/kubernetes"
	"k8s.io/client-go/rest"
	"k8s.io/client-go/tools/leaderelection"
	"k8s.io/client-go/tools/leaderelection/resourcelock"
)

// lock is the lease that candidates of this name hold.
func lock(client kubernetes.Interface, name string) resourcelock.Interface {
	return &resourcelock.LeaseLock{
		LeaseMeta:  metav1.ObjectMeta{Name: "lock", Namespace: "default"},
		Client:     client.CoordinationV1(),
		LockConfig: resourcelock.ResourceLockConfig{Identity: name},
	}
}

// run lets a candidate stand until its context ends; it tells when it leads.
func run(ctx context.Context, client kubernetes.Interface, name string, leads chan string) {
	leaderelection.RunOrDie(ctx, leaderelection.LeaderElectionConfig{
		Lock:          lock(client, name),
		LeaseDuration: 3 * time.Second,
		RenewDeadline: 2 * time.Second,
		RetryPeriod:   200 * time.Millisecond,
		Callbacks: leaderelection.LeaderCallbacks{
			OnStartedLeading: func(context.Context) { leads <- name },
			OnStoppedLeading: func() {},
		},
	})
}

// next is the next leader, which comes within a minute.
func next(leads chan string) string {
	select {
	case name := <-leads:
		return name
	case <-time.After(time.Minute):
		fmt.Fprintln(os.Stderr, "nobody leads")
		os.Exit(1)
		return ""
	}
}

func main() {
	if len(os.Args) != 2 {
		fmt.Fprintln(os.Stderr, "usage: leader_go http://127.0.0.1:PORT")
		os.Exit(2)
	}
	client := kubernetes.NewForConfigOrDie(&rest.Config{Host: os.Args[1]})
	leads := make(chan string)
	first, endFirst := context.WithCancel(context.Background())
	go run(first, client, "a", leads)
	fmt.Println(next(leads), "leads")
	second, end := context.WithCancel(context.Background())
	defer end()
	go run(second, client, "b", leads)
	endFirst()
	fmt.Println(next(leads), "leads")
	lease, err := client.CoordinationV1().Leases("default").Get(second, "lock", metav1.GetOptions{})
	if err != nil {
		fmt.Fprintln(os.Stderr, err)
		os.Exit(1)
	}
	fmt.Println("the lease is held by", *lease.Spec.HolderIdentity)
}
