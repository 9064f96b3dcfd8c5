package durskeyl

// Where the library is. A release has other lines here: they name the archive that lies in this folder (tools/release).

/*
#cgo pkg-config: durskeyl
*/
import "C"
