// Closed-loop puts of 16 bytes into etcd, one client a goroutine.
//
//	etcd CLIENTS SECONDS ENDPOINTS
//
// Prints puts a second, the median and the 99th percentile in microseconds. It is built over Debian's packages golang-go and
// golang-etcd-server-dev by: GOPATH=/usr/share/gocode GO111MODULE=off go build
package main

import (
	"context"
	"fmt"
	"os"
	"sort"
	"strconv"
	"strings"
	"sync"
	"time"

	"go.etcd.io/etcd/clientv3"
)

func puts(index int, endpoint string, end time.Time) []float64 {
	client, err := clientv3.New(clientv3.Config{Endpoints: []string{endpoint}, DialTimeout: 5 * time.Second})
	if err != nil {
		panic(err)
	}
	defer client.Close()
	var times []float64
	for k := 0; time.Now().Before(end); k++ {
		begin := time.Now()
		if _, err := client.Put(context.Background(), fmt.Sprintf("k%d-%d", index, k), "xxxxxxxxxxxxxxxx"); err != nil {
			panic(err)
		}
		times = append(times, time.Since(begin).Seconds()*1e6)
	}
	return times
}

func main() {
	clients, _ := strconv.Atoi(os.Args[1])
	seconds, _ := strconv.ParseFloat(os.Args[2], 64)
	endpoints := strings.Split(os.Args[3], ",")
	var lock sync.Mutex
	var all []float64
	var group sync.WaitGroup
	begin := time.Now()
	end := begin.Add(time.Duration(seconds * float64(time.Second)))
	for index := 0; index < clients; index++ {
		group.Add(1)
		go func(index int) {
			defer group.Done()
			times := puts(index, endpoints[index%len(endpoints)], end)
			lock.Lock()
			all = append(all, times...)
			lock.Unlock()
		}(index)
	}
	group.Wait()
	took := time.Since(begin).Seconds()
	sort.Float64s(all)
	fmt.Printf("%.1f %.2f %.2f 0\n", float64(len(all))/took, all[len(all)/2], all[len(all)*99/100])
}
