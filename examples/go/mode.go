// Prints the mode of the NFSv4 list on standard input. The exit status is 2 if the list is refused.
package main

import (
	"errors"
	"fmt"
	"io"
	"os"

	"aclck"
)

func main() {
	list, err := io.ReadAll(os.Stdin)
	if err != nil {
		os.Exit(4)
	}
	mode, err := aclck.Mode(list, aclck.Full)
	var fault *aclck.Fault
	if errors.As(err, &fault) {
		fmt.Fprintln(os.Stderr, fault)
		os.Exit(2)
	} else if err != nil {
		os.Exit(4)
	}
	fmt.Printf("%03o\n", mode)
}
