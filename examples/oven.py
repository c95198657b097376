class Oven:
    limit = 350
    def __init__(self, port):
        self.port = port
        self.temp = 20
    def ramp(self, to, rate):
        while self.temp < to:
            self.temp = self.temp + rate
            hold(self.temp)
    def cool():
        self.temp = 20
oven = Oven(port)
steps = [(60, 1), (180, 10), (limit, 15)]
def run(vial):
    print(vial, area)
    for step in steps:
        oven.ramp(step[0], step[1])
    area = map(lambda p: p * gain, peaks)
    return area
for vial in range(1, vials):
    result = run(vial)
    if result > 0:
        print(vial, result)
    elif retry:
        continue
prnt(len(results))
