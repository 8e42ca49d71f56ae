"""The sounder calibrator: raw counts of a microwave sounder become brightness temperatures, by the proved library libstation."""
