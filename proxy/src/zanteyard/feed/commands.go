package feed

import (
	"encoding/json"
	"fmt"

	"zanteyard/guard"
)

type command struct {
	Command      string      `json:"command"`
	ID           int64       `json:"id"`
	Marks        []uint64    `json:"marks"`
	Transactions [][2]uint64 `json:"transactions"`
}

// obey executes one line.
func obey(line []byte, to Commands) error {
	var it command
	if err := json.Unmarshal(line, &it); err != nil {
		return fmt.Errorf("can't read a command: %w", err)
	}
	guard.At("the command " + it.Command)
	switch it.Command {
	case "cut":
		to.Cut(it.Marks)
	case "describe":
		to.Describe(it.ID, it.Transactions)
	case "round":
		to.Round()
	case "restart":
		to.Restart()
	case "stop":
		to.Stop()
	default:
		return fmt.Errorf("unknown command %q", it.Command)
	}
	return nil
}
