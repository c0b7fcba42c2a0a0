"""Parts of tests/test-page: `sets` has pages of sessions that overlapped, `using` what a person does with a page in
Chromium: filters, keys, what a screen reader is told, dark and light."""
