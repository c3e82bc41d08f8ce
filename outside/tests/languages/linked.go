//go:build linked

package main

import "C" // so that the C library is linked
