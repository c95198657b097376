def dose(pump, volume):
    for step in range(volume):
        print(pump, step)
dose(valve, 5)
