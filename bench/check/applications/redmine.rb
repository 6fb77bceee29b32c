# Redmine's own web application and REST API in this process, run by its `rails runner`. Used by `totals.py`: the
# environment's STEP is `prepare` (users, projects, issues), or the number of one of four clients that make requests.
STEP = ENV.fetch('STEP')
TURNS = (ENV['TURNS'] || 5).to_i
MODULES = %w[issue_tracking time_tracking wiki news documents boards calendar gantt].freeze

def prepare
  Setting.rest_api_enabled = '1'
  role = Role.givable.first
  members = (1..4).map { |number| member(number) }
  (1..3).each { |number| project(number, members, role) }
end

def member(number)
  user = User.new(firstname: "First#{number}", lastname: "Last#{number}", mail: "m#{number}@x.example")
  user.login, user.password = "member#{number}", 'password1'
  user.save!
  user.api_key
  user
end

def project(number, members, role)
  made = Project.new(name: "Project #{number}", identifier: "project#{number}", is_public: true)
  made.enabled_module_names = MODULES
  made.trackers = Tracker.all
  made.save!
  members.each { |user| Member.create!(project: made, user: user, role_ids: [role.id]) }
  made.issue_categories.create!(name: 'any')
  made.versions.create!(name: '1.0')
  20.times do |turn|
    Issue.create!(project: made, tracker: Tracker.first, author: members[turn % 4], subject: "Seed #{number}.#{turn}",
                  status: IssueStatus.first, priority: IssuePriority.first)
  end
end

# Uses the application as a browser and as a program.
class Client
  def initialize(number)
    @number, @chance, @answers = number, Random.new(number), Hash.new(0)
    @user = User.find_by_login("member#{number}")
    Rails.application.config.hosts.clear if Rails.application.config.respond_to?(:hosts)
    @session = ActionDispatch::Integration::Session.new(Rails.application)
    @session.host! 'localhost'
  end

  def call(verb, path, **fields)
    its = fields.empty? ? {} : { params: fields }
    @session.send(verb, path, headers: { 'X-Redmine-API-Key' => @user.api_key }, **its)
    @answers["#{verb} #{@session.response.status}"] += 1
    JSON.parse(@session.response.body) rescue nil
  end

  def look(path)
    @session.get path
    @answers["page #{@session.response.status}"] += 1
  end

  def work
    TURNS.times { |turn| take(turn, @chance.rand(1..3), @chance.rand(1..20)) }
    puts @answers.inspect
  end

  def take(turn, project, shared)
    call(:get, '/projects.json')
    call(:get, "/projects/#{project}.json?include=trackers,issue_categories,enabled_modules")
    call(:get, "/issues.json?project_id=#{project}&status_id=open&sort=updated_on:desc&limit=25")
    its = { project_id: project, tracker_id: 1, subject: "By #{@number}.#{turn}", description: 'text', status_id: 1,
            priority_id: IssuePriority.first.id, assigned_to_id: @user.id }
    number = call(:post, '/issues.json', issue: its)['issue']['id']
    call(:get, "/issues/#{number}.json?include=journals,watchers,relations,attachments,children")
    call(:put, "/issues/#{number}.json", issue: { notes: "A note #{turn}", done_ratio: 50, status_id: 2 })
    share(turn, project, shared, number)
    %W[/projects/project#{project}/issues /issues/#{shared} /projects/project#{project}/activity /search?q=text
       /projects/project#{project}/issues/report].each { |path| look(path) }
    call(:delete, "/issues/#{number}.json") if turn % 4 == 3
  end

  # What several clients may do to one issue at the same time.
  def share(turn, project, shared, number)
    call(:put, "/issues/#{shared}.json", issue: { notes: "By #{@number}.#{turn}", done_ratio: @chance.rand(0..9) * 10 })
    its = { issue_id: shared, hours: 1, activity_id: TimeEntryActivity.first.id, comments: 'any' }
    call(:post, '/time_entries.json', time_entry: its)
    call(:put, "/projects/project#{project}/wiki/page#{@chance.rand(1..4)}.json", wiki_page: { text: "Text #{turn}" })
    call(:post, "/issues/#{shared}/watchers.json", user_id: @user.id)
    return unless turn % 3 == 0

    call(:post, "/issues/#{shared}/relations.json", relation: { issue_to_id: number, relation_type: 'relates' })
  end
end

STEP == 'prepare' ? prepare : Client.new(STEP.to_i).work
