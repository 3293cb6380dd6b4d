module lifeguard-agent.example/choose

go 1.19

require lifeguard-agent.example/members v0.0.0

replace lifeguard-agent.example/members => ../../clients/go
