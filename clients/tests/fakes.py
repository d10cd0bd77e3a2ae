"""What a program in place of Rewind answers first."""

# What `show g0` tells of a program that has just begun.
FRAME = '{"function":"main","variables":[]}'
FIRST = f'{{"reply":{{"answer":"goroutine","goroutine":"g0","status":"ready","steps":0,"line":1,"frames":[{FRAME}]}},"text":""}}'
