# columns are characters, not bytes; tabs stay tabs
print("20 °C", temp)
def wash(volume):
	if volume > 0:
		print("µl, 𝛼 ≤ ½", volume, cycles)
	hold(1,
		"zwölf")
	return [rate, """°
°""", solvent]
wash(rinse)