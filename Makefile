# The release: what is uploaded, in out/release. CONTRIBUTING.md says what comes before it.
#
#     make release    makes all twice, of what is committed and proved, compares the bytes, and tries each part on a bare Debian
#     make packages   makes all once, whatever is committed, and tries nothing
#
# It needs root, for the bare Debian.
# Debian: make gcc git python3-dev python3-setuptools nodejs binaryen dpkg-dev lintian debootstrap.
OUT = out/release

release:
	release/ready
	rm -rf $(OUT) $(OUT).again
	release/build $(OUT)
	release/build $(OUT).again
	diff -r $(OUT) $(OUT).again
	rm -rf $(OUT).again
	lintian --fail-on error --allow-root $(OUT)/*.deb
	release/try $(OUT)

packages:
	rm -rf $(OUT)
	release/build $(OUT)

.PHONY: release packages
