package urbd

import (
	"encoding/json"
	"errors"
	"os"
	"path/filepath"
)

// Keep writes a value to a file. If the program stops meanwhile, the file has the old value or the new one.
func Keep(path string, value any) error {
	text, err := json.Marshal(value)
	if err != nil {
		return err
	}
	file, err := os.OpenFile(path+".new", os.O_CREATE|os.O_TRUNC|os.O_WRONLY, 0o600)
	if err != nil {
		return err
	}
	_, err = file.Write(text)
	if err == nil {
		err = file.Sync()
	}
	if other := file.Close(); err == nil {
		err = other
	}
	if err == nil {
		err = os.Rename(path+".new", path)
	}
	if err != nil {
		return err
	}
	folder, err := os.Open(filepath.Dir(path))
	if err != nil {
		return err
	}
	defer folder.Close()
	return folder.Sync()
}

// Kept reads the value that Keep wrote; false if there is none. It is Stopped if the file is another kind of file.
func Kept(path string, value any) (bool, error) {
	text, err := os.ReadFile(path)
	if errors.Is(err, os.ErrNotExist) {
		return false, nil
	}
	if err != nil {
		return false, err
	}
	if json.Unmarshal(text, value) != nil {
		return false, Stopped{path + " isn't a file that a client has kept"}
	}
	return true, nil
}
