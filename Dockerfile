# tfk in an image of one file, for pre-commit's tfk-..-docker hooks and for other platforms.
# docs/INTEGRATING.md has the commands.
FROM --platform=linux/amd64 scratch
COPY dist/tfk /tfk
ENTRYPOINT ["/tfk"]
