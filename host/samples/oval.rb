# The rods of an oval basket: a base of two half circles and a straight part,
# and walls that lean outwards by a tenth of their height.
NAMES = ["stake", "weaver"]

class Oval
  def initialize(width, length)
    @width = width
    @straight = length - width
  end

  def rim(height)
    lean = height * 0.1
    2 * @straight + 3.14159 * (@width + 2 * lean)
  end

  def rods(pitch)
    count = (rim(0.0) / pitch).to_i
    count += 1 if count.odd?
    count
  end
end

oval = Oval.new(18.5, 32.25)
begin
  rods = oval.rods(1.75)
  raise "too few rods" if rods < 12
  rods.times do |i|
    puts "#{NAMES[i % 2]} #{i}: #{oval.rim(i * 0.5).round(1)} cm"
  end
rescue => error
  puts "no basket: #{error.message}"
end
