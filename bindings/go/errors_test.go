package mst

import "testing"

func TestAnUnknownNumberIsAnError(t *testing.T) {
	if err := refusal(-99); err == nil || err.Error() != "mst: the library answered -99" {
		t.Errorf("it became %v", err)
	}
	for told, err := range refusals {
		if refusal(told) != err {
			t.Errorf("%d became %v", told, refusal(told))
		}
	}
}
