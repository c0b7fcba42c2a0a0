// A session of pkg/sftp with a server over pipes: by_go FOLDER COMMAND...
// The folder has the files large and small. What goes wrong is the last line, with status 1.
package main

import (
	"bytes"
	"fmt"
	"io"
	"os"
	"os/exec"
	"path/filepath"
	"sort"

	"github.com/pkg/sftp"
)

func want(holds bool, why string, values ...interface{}) {
	if !holds {
		fmt.Fprintf(os.Stderr, why+"\n", values...)
		os.Exit(1)
	}
}

func done(err error, what string) {
	want(err == nil, "%s: %v", what, err)
}

func main() {
	folder, words := os.Args[1], os.Args[2:]
	server := exec.Command(words[0], words[1:]...)
	input, err := server.StdinPipe()
	done(err, "pipe")
	output, err := server.StdoutPipe()
	done(err, "pipe")
	done(server.Start(), "start")
	client, err := sftp.NewClientPipe(output, input)
	done(err, "no session")
	transfer(client, folder)
	look(client)
	change(client)
	input.Close()
	done(server.Wait(), "the server's end")
}

func transfer(client *sftp.Client, folder string) {
	large, err := os.ReadFile(filepath.Join(folder, "large"))
	done(err, "large")
	file, err := client.Create("large")
	done(err, "create")
	_, err = file.ReadFrom(bytes.NewReader(large))
	done(err, "put")
	done(file.Close(), "close")
	file, err = client.Open("large")
	done(err, "open")
	var back bytes.Buffer
	_, err = file.WriteTo(&back)
	done(err, "get")
	want(bytes.Equal(back.Bytes(), large), "another file came back")
	_, err = file.Seek(0, io.SeekStart)
	done(err, "seek")
	done(file.Close(), "close")
}

func look(client *sftp.Client) {
	items, err := client.ReadDir("/many")
	done(err, "readdir")
	names := []string{}
	for _, item := range items {
		names = append(names, item.Name())
		want(item.Mode().IsRegular() && item.Size() == 7, "%s is no file of 7 bytes", item.Name())
	}
	sort.Strings(names)
	for number := 0; number < 100; number++ {
		want(len(names) == 100 && names[number] == fmt.Sprintf("name %02d", number), "%d of 100 names are listed", len(names))
	}
	shown, err := client.Stat("/link")
	done(err, "stat")
	want(shown.Size() == 5 && shown.Mode() == 0644, "stat shows %d, %v", shown.Size(), shown.Mode())
	place, err := client.RealPath("/many/../f")
	done(err, "realpath")
	target, err := client.ReadLink("/link")
	done(err, "readlink")
	want(place == "/f" && target == "f", "a path is another one")
	for _, path := range []string{"/absent", "/f/x"} {
		_, err = client.Stat(path)
		want(os.IsNotExist(err), "stat of %s: %v", path, err)
	}
}

func change(client *sftp.Client) {
	done(client.Mkdir("/d"), "mkdir")
	want(client.Mkdir("/d") != nil, "a directory is made twice")
	done(client.Rename("/large", "/d/moved"), "rename")
	items, err := client.ReadDir("/d")
	done(err, "readdir")
	want(len(items) == 1 && items[0].Name() == "moved", "a file is not where it was moved to")
	done(client.Remove("/d/moved"), "remove")
}
