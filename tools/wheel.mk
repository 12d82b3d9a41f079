# The Python package: a wheel that every Python from 3.9 on can install, with nothing fetched from anywhere.

WHEEL := target/dist/curlew-$(VERSION)-cp39-abi3-linux_x86_64.whl

wheel: $(WHEEL)

$(WHEEL): $(wildcard python/*.* python/src/* python/curlew/*.py*) include/curlew.h tools/wheel.mk tools/wheel $(ARCHIVE)
	@SOURCE_DATE_EPOCH="$(SOURCE_DATE_EPOCH)" tools/wheel $(ARCHIVE) include target/dist
