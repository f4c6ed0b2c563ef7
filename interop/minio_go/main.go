// One call of the library minio-go, for `interop/run`: `main CALL WORD ..`. The environment says the server and who asks.
package main

import (
	"bytes"
	"context"
	"encoding/json"
	"fmt"
	"io"
	"os"
	"strconv"
	"time"

	minio "github.com/minio/minio-go/v7"
	"github.com/minio/minio-go/v7/pkg/credentials"
)

const partSize = 8 << 20

var (
	ctx    = context.Background()
	bucket = os.Getenv("PAIL_BUCKET")
	words  = os.Args[2:]
)

// Tells an error with the status of its answer, and ends.
func check(err error) {
	if err != nil {
		fmt.Fprintf(os.Stderr, "status %d: %v\n", minio.ToErrorResponse(err).StatusCode, err)
		os.Exit(1)
	}
}

func number(word string) int64 {
	found, err := strconv.ParseInt(word, 10, 64)
	check(err)
	return found
}

func read(path string) []byte {
	found, err := os.ReadFile(path)
	check(err)
	return found
}

// Writes what comes to the standard output.
func write(object *minio.Object, err error) {
	check(err)
	_, err = io.Copy(os.Stdout, object)
	check(err)
}

func tell(it any) {
	check(json.NewEncoder(os.Stdout).Encode(it))
}

// The key and the size of each object, and of a common prefix no size.
func list(client *minio.Client, first bool) {
	most := int(number(words[2]))
	asked := minio.ListObjectsOptions{Prefix: words[0], Recursive: words[1] == "", MaxKeys: most, UseV1: first}
	rows := [][2]any{}
	for found := range client.ListObjects(ctx, bucket, asked) {
		check(found.Err)
		if found.ETag == "" {
			rows = append(rows, [2]any{found.Key, nil})
		} else {
			rows = append(rows, [2]any{found.Key, found.Size})
		}
	}
	tell(rows)
}

func remove(client *minio.Client) {
	objects := client.ListObjects(ctx, bucket, minio.ListObjectsOptions{Prefix: words[0], Recursive: true})
	for found := range client.RemoveObjects(ctx, bucket, objects, minio.RemoveObjectsOptions{}) {
		check(found.Err)
	}
}

func put(client *minio.Client, asked minio.PutObjectOptions) {
	data := read(words[1])
	_, err := client.PutObject(ctx, bucket, words[0], bytes.NewReader(data), int64(len(data)), asked)
	check(err)
}

func send(core minio.Core) {
	data := read(words[3])
	part, err := core.PutObjectPart(ctx, bucket, words[0], words[1], int(number(words[2])), bytes.NewReader(data),
		int64(len(data)), "", "", nil)
	check(err)
	tell(part.ETag)
}

func complete(core minio.Core) {
	parts := []minio.CompletePart{}
	for at, tag := range words[2:] {
		parts = append(parts, minio.CompletePart{PartNumber: at + 1, ETag: tag})
	}
	_, err := core.CompleteMultipartUpload(ctx, bucket, words[0], words[1], parts, minio.PutObjectOptions{})
	check(err)
}

func copyObject(client *minio.Client) {
	to := minio.CopyDestOptions{Bucket: bucket, Object: words[1]}
	_, err := client.CopyObject(ctx, to, minio.CopySrcOptions{Bucket: bucket, Object: words[0]})
	check(err)
}

func stat(client *minio.Client, asked minio.StatObjectOptions) {
	found, err := client.StatObject(ctx, bucket, words[0], asked)
	check(err)
	tell(found.Size)
}

func main() {
	client, err := minio.New(os.Getenv("PAIL_ADDRESS"), &minio.Options{
		Creds:           credentials.NewStaticV4(os.Getenv("PAIL_ID"), os.Getenv("PAIL_SECRET"), ""),
		Region:          os.Getenv("PAIL_REGION"),
		Secure:          os.Getenv("PAIL_SECURE") != "",
		BucketLookup:    minio.BucketLookupPath,
		TrailingHeaders: true,
	})
	check(err)
	minio.MaxRetry = 1
	core := minio.Core{Client: client}
	asked, unless := minio.GetObjectOptions{}, minio.GetObjectOptions{}
	switch os.Args[1] {
	case "put":
		put(client, minio.PutObjectOptions{DisableMultipart: true})
	case "put-parts":
		put(client, minio.PutObjectOptions{PartSize: partSize})
	case "get":
		write(client.GetObject(ctx, bucket, words[0], asked))
	case "part":
		first := number(words[1])
		check(asked.SetRange(first, first+number(words[2])-1))
		write(client.GetObject(ctx, bucket, words[0], asked))
	case "get-unless":
		check(unless.SetMatchETagExcept(words[1]))
		write(client.GetObject(ctx, bucket, words[0], unless))
	case "head":
		stat(client, minio.StatObjectOptions{})
	case "head-if":
		check(asked.SetMatchETag(words[1]))
		stat(client, asked)
	case "delete":
		check(client.RemoveObject(ctx, bucket, words[0], minio.RemoveObjectOptions{}))
	case "copy":
		copyObject(client)
	case "presign":
		address, err := client.Presign(ctx, words[0], bucket, words[1], time.Hour, nil)
		check(err)
		tell(address.String())
	case "list":
		list(client, false)
	case "list-v1":
		list(client, true)
	case "remove":
		remove(client)
	case "begin":
		id, err := core.NewMultipartUpload(ctx, bucket, words[0], minio.PutObjectOptions{})
		check(err)
		tell(id)
	case "send":
		send(core)
	case "complete":
		complete(core)
	case "abort":
		check(core.AbortMultipartUpload(ctx, bucket, words[0], words[1]))
	case "make-bucket":
		check(client.MakeBucket(ctx, words[0], minio.MakeBucketOptions{Region: words[1]}))
	case "remove-bucket":
		check(client.RemoveBucket(ctx, words[0]))
	default:
		fmt.Fprintln(os.Stderr, "no such call")
		os.Exit(2)
	}
}
