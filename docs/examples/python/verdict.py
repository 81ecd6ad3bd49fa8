import sys, jillapun

source, target, path, into = sys.argv[1:]
done = jillapun.convert_file(path, into, source, target)
print(done.summary)
