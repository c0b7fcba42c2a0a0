// A session of pkg/sftp with a server over pipes: by_go FOLDER COMMAND...
// The folder has the files large and small. Each step is a line: its name, a tab, and why it failed if it did.
package main

import (
	"bytes"
	"fmt"
	"os"
	"os/exec"
	"path/filepath"
	"sort"
	"strings"

	"github.com/pkg/sftp"
)

func step(name string, holds bool, why string) {
	if holds {
		why = ""
	}
	fmt.Printf("%s\t%s\n", name, why)
}

// done ends the session where a call fails.
func done(err error, what string) {
	if err != nil {
		fmt.Fprintf(os.Stderr, "%s: %v\n", what, err)
		os.Exit(1)
	}
}

func main() {
	folder, words := os.Args[1], os.Args[2:]
	server := exec.Command(words[0], words[1:]...)
	input, err := server.StdinPipe()
	done(err, "pipe")
	output, err := server.StdoutPipe()
	done(err, "pipe")
	done(server.Start(), "start")
	client, err := sftp.NewClientPipe(output, input)
	done(err, "no session")
	transfer(client, folder)
	change(client)
	look(client)
	input.Close()
	err = server.Wait()
	step("the server ends with status 0", err == nil, fmt.Sprint(err))
}

func contents(folder, name string) []byte {
	data, err := os.ReadFile(filepath.Join(folder, name))
	done(err, name)
	return data
}

func transfer(client *sftp.Client, folder string) {
	large, small := contents(folder, "large"), contents(folder, "small")
	done(client.Mkdir("d"), "mkdir")
	file, err := client.Create("d/large")
	done(err, "create")
	_, err = file.ReadFrom(bytes.NewReader(large))
	done(err, "put")
	done(file.Close(), "close")
	file, err = client.Open("d/large")
	done(err, "open")
	var back bytes.Buffer
	_, err = file.WriteTo(&back)
	done(err, "get")
	step("a file of 3,000,000 bytes comes back", bytes.Equal(back.Bytes(), large), "it is another one")
	same := true
	for _, place := range []int64{0, 99999, 2999500} {
		part := make([]byte, 500)
		_, err = file.ReadAt(part, place)
		done(err, "read")
		same = same && bytes.Equal(part, large[place:place+500])
	}
	step("parts of a file come back", same, "they are others")
	done(file.Close(), "close")
	log, err := client.OpenFile("d/log", os.O_WRONLY|os.O_CREATE|os.O_APPEND)
	done(err, "open to append")
	_, err = log.Write(small)
	done(err, "write")
	done(log.Sync(), "fsync")
	done(log.Close(), "close")
	done(client.PosixRename("d/log", "d/large"), "posix-rename")
	step("posix-rename replaces a file", size(client, "d/large") == int64(len(small)), "it is another one")
}

func size(client *sftp.Client, path string) int64 {
	shown, err := client.Stat(path)
	done(err, "stat")
	return shown.Size()
}

func change(client *sftp.Client) {
	done(client.Symlink("large", "d/link"), "symlink")
	target, err := client.ReadLink("d/link")
	done(err, "readlink")
	step("a link has its target", target == "large", target)
	done(client.Truncate("d/large", 5), "truncate")
	done(client.Chmod("d/large", 0640), "chmod")
	done(client.Chown("d/large", 7, 8), "chown")
	shown, err := client.Stat("d/link")
	done(err, "stat")
	owner := shown.Sys().(*sftp.FileStat)
	found := fmt.Sprint(shown.Size(), shown.Mode(), owner.UID, owner.GID)
	step("attributes are those that were set", found == "5 -rw-r----- 7 8", found)
	done(client.Link("d/large", "d/second"), "hardlink")
	step("a second name leads to the file", size(client, "d/second") == 5, "it does not")
	done(client.Remove("d/second"), "remove")
}

func look(client *sftp.Client) {
	expected := []string{"large", "link"}
	for number := 0; number < 100; number++ {
		name := fmt.Sprintf("%02d", number)
		file, err := client.Create("d/" + name)
		done(err, "create")
		done(file.Close(), "close")
		expected = append(expected, name)
	}
	sort.Strings(expected)
	items, err := client.ReadDir("d")
	done(err, "readdir")
	names := []string{}
	for _, item := range items {
		names = append(names, item.Name())
	}
	sort.Strings(names)
	step("102 names are listed", strings.Join(names, ",") == strings.Join(expected, ","), fmt.Sprint(len(names), " names"))
	path, err := client.RealPath("d/../d/x")
	done(err, "realpath")
	step("the path is absolute", path == "/d/x", path)
	_, err = client.Stat("absent")
	step("an absent file is an error", os.IsNotExist(err), fmt.Sprint(err))
}
